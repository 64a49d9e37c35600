//! How long the calls take beside plain Rust and plain C on the same input, in the same run: the best of some rounds, taken in turn. Buffers are
//! lent as the round before left them. Every answer is compared. And how long the forward count takes beside Count, the small scenarios call beside the
//! other one, and `gap`, `reply`, `bal` and `day` lines to read beside the moves they stand for; how long one draw takes, by n; and sheets, by their lists.
mod plain;

use outside::texts::{chain, lower_first, slow_growth, written_out, End};
use outside::{calls, model, random::Random};
use plain::{prune, read};
use std::time::Instant;

fn timed(f: &mut dyn FnMut()) -> f64 {
    let start = Instant::now();
    f();
    start.elapsed().as_secs_f64() * 1e3
}

/// The best time of each in milliseconds.
fn best(rounds: usize, runs: &mut [&mut dyn FnMut()]) -> Vec<f64> {
    let mut best = vec![f64::MAX; runs.len()];
    for _ in 0..rounds {
        for (b, run) in best.iter_mut().zip(runs.iter_mut()) {
            *b = b.min(timed(run));
        }
    }
    best
}

/// Prints the best times in milliseconds, and the ratios of the first to the others: of ours, plain Rust, plain C and C over our rows, or of two calls of
/// ours and plain C.
fn row(name: &str, rounds: usize, runs: &mut [&mut dyn FnMut()]) {
    let best = best(rounds, runs);
    let times: String = best.iter().map(|b| format!(" {b:10.3}")).collect();
    let ratios: String = best[1..].iter().map(|b| format!(" {:7.2}", best[0] / b)).collect();
    println!("{name:62}{times:44}{ratios}");
}

/// A monitor of so many states whose first ones have a move on each event, to the states that `to` gives.
fn mon(events: u64, states: u64, moving: u64, mut to: impl FnMut(u64) -> u64) -> String {
    let moves = (0..moving).flat_map(|x| (0..events).map(move |e| (x, e)));
    format!("mon\t{states}\n{}", moves.map(|(x, e)| format!("go\t{x}\t{e}\t{}\n", to(e))).collect::<String>())
}

/// Every monitor has every move, to random states.
fn full_rig(events: u64, monitors: &[u64], rng: &mut Random) -> Vec<u8> {
    let lines: String = monitors.iter().map(|&s| mon(events, s, s, |_| rng.below(s))).collect();
    format!("rig\t{events}\n{lines}").into_bytes()
}

/// Two monitors of 32 states with every move, to random states; but in the first `last` leads to a state in which runs stop: it has no move.
fn stopping_rig(last: u64, rng: &mut Random) -> Vec<u8> {
    let first = mon(16, 32, 31, |e| if e == last { 31 } else { rng.below(31) });
    let second = mon(16, 32, 32, |_| rng.below(32));
    let marks: String = (0..32).map(|s| format!("stop\t{s}\n")).collect();
    format!("rig\t16\n{first}stop\t31\n{second}{marks}").into_bytes()
}

fn count(name: &str, rounds: usize, t: &[u8], h: usize) {
    let p = read(t).map(|r| prune(&r).states).unwrap();
    let [mut a, mut b, mut c] = [(); 3].map(|_| vec![0; (h + 1) * p]);
    let (mut told, mut passes) = (None, 0);
    row(
        name,
        rounds,
        &mut [
            &mut || told = Some(calls::count(t, h as u64, &mut a)),
            &mut || {
                let pruned = prune(&read(t).unwrap());
                pruned.fill(h, &mut b);
                passes = pruned.passes;
            },
            &mut || prune(&read(t).unwrap()).c_fill(h, &mut c),
        ],
    );
    let told = told.unwrap();
    assert!(a == b && a == c && (told.number != 0 || told.words == [b[h * p], passes]));
}

fn scenarios(name: &str, t: &[u8], h: usize, list: usize, rng: &mut Random) {
    let p = read(t).map(|r| prune(&r).states).unwrap();
    let [mut cells, mut other, mut third, mut fourth] = [(); 4].map(|_| vec![0; (h + 1) * p]);
    let n = calls::count(t, h as u64, &mut cells).words[0];
    let indices: Vec<u64> = (0..list).map(|_| rng.below(n)).collect();
    let [mut a, mut b, mut c, mut d] = [(); 4].map(|_| vec![0; list * h]);
    row(
        name,
        5,
        &mut [
            &mut || assert!(calls::scenarios(t, h as u64, &indices, &mut cells, &mut a).number == 0),
            &mut || {
                let pruned = prune(&read(t).unwrap());
                pruned.fill(h, &mut other);
                indices.iter().zip(b.chunks_mut(h)).for_each(|(i, part)| pruned.unrank(&other, *i, part));
            },
            &mut || {
                let pruned = prune(&read(t).unwrap());
                pruned.c_fill(h, &mut third);
                indices.iter().zip(c.chunks_mut(h)).for_each(|(i, part)| pruned.c_unrank(&third, *i, part));
            },
            &mut || {
                let pruned = prune(&read(t).unwrap());
                let rows = pruned.rows();
                pruned.c_fill(h, &mut fourth);
                indices.iter().zip(d.chunks_mut(h)).for_each(|(i, part)| pruned.c_unrank_rows(&rows, &fourth, *i, part));
            },
        ],
    );
    assert!(a == b && a == c && a == d);
    let [mut i, mut j, mut k] = [None; 3];
    row(
        &format!("index of one of these, {h} events"),
        20,
        &mut [
            &mut || i = Some(calls::index(t, &a[..h], &mut cells).words[0]),
            &mut || {
                let pruned = prune(&read(t).unwrap());
                pruned.fill(h, &mut other);
                j = pruned.rank(&other, &b[..h]);
            },
            &mut || {
                let pruned = prune(&read(t).unwrap());
                pruned.c_fill(h, &mut third);
                k = pruned.c_rank(&third, &c[..h]);
            },
        ],
    );
    assert!(i == j && i == k);
}

/// The forward count beside Count, and beside plain C after reading and pruning in Rust.
fn forward(name: &str, rounds: usize, t: &[u8], h: usize) {
    let p = read(t).map(|r| prune(&r).states).unwrap();
    let [mut two, mut all, mut plain] = [model::two_rows, model::all_rows, model::two_rows].map(|need| vec![0; need(h, p)]);
    let ([mut a, mut b], mut n) = ([None; 2], 0);
    row(
        name,
        rounds,
        &mut [
            &mut || a = Some(calls::count_forward(t, h as u64, &mut two)),
            &mut || b = Some(calls::count(t, h as u64, &mut all)),
            &mut || n = prune(&read(t).unwrap()).c_forward(h, &mut plain),
        ],
    );
    assert!(a == b);
    let told = a.unwrap();
    assert!((told.number, n) == (0, told.words[0]) || (told.number, n) == (9, 0) || (told.number, n) == (10, u64::MAX));
}

/// A count to be timed: its name, how many rounds, the text and the horizon.
type Case<'a> = (&'a str, usize, &'a [u8], usize);

fn forwards(cases: &[Case], rng: &mut Random) {
    println!(
        "\n{:62} {:>10} {:>10} {:>10} {:10} {:>7} {:>7}",
        "count from the front", "forward ms", "count ms", "C ms", "", "/ count", "/ C"
    );
    cases.iter().for_each(|&(name, rounds, t, h)| forward(name, rounds, t, h));
    for last in [0, 15] {
        let name = format!("dense: 16 ways a state, runs stop after event {last}, h 1,000");
        forward(&name, 20, &stopping_rig(last, rng), 1000);
    }
    let slow = slow_growth(6, &[32]);
    forward("sparse: 1 or 2 ways, P 192, no full cell, h 1,000", 50, &slow, 1000);
    forward("sparse: 1 or 2 ways, P 192, no full cell, h 30", 200, &slow, 30);
}

/// What the forward count takes of Count's time by the horizon, for rigs with every move.
fn horizons(rng: &mut Random) {
    let horizons = [5, 15, 30, 60, 100, 300, 1000];
    println!("\n{:62}{}", "count from the front / count, P 1,024, by the horizon", horizons.map(|h| format!(" {h:>7}")).concat());
    for ways in [2, 4, 8, 16] {
        let t = full_rig(ways, &[32, 32], rng);
        let ratios = horizons.map(|h| {
            let [mut two, mut all] = [model::two_rows, model::all_rows].map(|need| vec![0; need(h, 1024)]);
            let [mut a, mut b] = [None; 2];
            let times = best(
                20,
                &mut [&mut || a = Some(calls::count_forward(&t, h as u64, &mut two)), &mut || {
                    b = Some(calls::count(&t, h as u64, &mut all))
                }],
            );
            assert!(a == b);
            format!(" {:7.2}", times[0] / times[1])
        });
        println!("{:62}{}", format!("{ways} ways a state"), ratios.concat());
    }
}

/// The small scenarios call beside the one that keeps all rows.
fn small(name: &str, rounds: usize, t: &[u8], list: usize, rng: &mut Random) {
    let h = 1000;
    let p = read(t).map(|r| prune(&r).states).unwrap();
    let (mut few, mut all) = (vec![0; model::few_rows(h, p)], vec![0; model::all_rows(h, p)]);
    let n = calls::count(t, h as u64, &mut all).words[0];
    let indices: Vec<u64> = (0..list).map(|_| rng.below(n)).collect();
    let [mut a, mut b] = [(); 2].map(|_| vec![0; list * h]);
    row(
        name,
        rounds,
        &mut [&mut || assert!(calls::scenarios_small(t, h as u64, &indices, &mut few, &mut a).number == 0), &mut || {
            assert!(calls::scenarios(t, h as u64, &indices, &mut all, &mut b).number == 0)
        }],
    );
    assert!(a == b);
}

fn smalls(rng: &mut Random) {
    println!("\n{:62} {:>10} {:>10} {:21} {:>7}", "scenarios of 1,000 events", "small ms", "all ms", "", "/ all");
    for (p, t) in [("6", slow_growth(6, &[])), ("192", slow_growth(6, &[32])), ("1,024", slow_growth(8, &[32, 4]))] {
        small(&format!("20,000 scenarios, sparse, P {p}"), 5, &t, 20_000, rng);
        small(&format!("one scenario, sparse, P {p}"), 50, &t, 1, rng);
    }
}

/// Lines of a listing with the indices 0 to 999, again and again, each with h random events below `most`.
fn lines(name: &str, count: usize, h: usize, most: u64, rng: &mut Random) {
    let events: Vec<u8> = (0..count * h).map(|_| rng.below(most) as u8).collect();
    let listed = |write: fn(u64, &[u8], &mut [u8]) -> usize, out: &mut [u8]| {
        let mut end = 0;
        for k in 0..count {
            end += write(k as u64 % 1000, &events[k * h..(k + 1) * h], &mut out[end..]);
        }
        end
    };
    let [mut a, mut b, mut c] = [(); 3].map(|_| vec![0; count * (21 + 4 * h)]);
    let [mut i, mut j, mut k] = [0; 3];
    row(
        name,
        50,
        &mut [&mut || i = listed(calls::line, &mut a), &mut || j = listed(plain::line, &mut b), &mut || k = listed(plain::c_line, &mut c)],
    );
    assert!(a[..i] == b[..j] && a[..i] == c[..k]);
}

fn shuffle(name: &str, n: u64, draws: Vec<u64>, array: bool) {
    let z = draws.len();
    let (mut scratch, mut a, mut b) = (vec![0; 2 * z], vec![0; z], vec![0; z]);
    row(
        name,
        5,
        &mut [&mut || assert!(calls::shuffle(n, &draws, &mut scratch, &mut a).number == 0), &mut || {
            if array {
                plain::shuffle_array(n, &draws, &mut b)
            } else {
                plain::shuffle_map(&draws, &mut b)
            }
        }],
    );
    assert!(a == b);
}

/// Best nanoseconds a draw for 10^4, 10^5 and 10^6 draws, and how much the last is more than the first. Each round has draws of its own, so that
/// no round runs on what the processor learnt of another's.
fn growth(
    name: &str,
    shuffle: &mut dyn FnMut(u64, &[u64], &mut [u64], &mut [u64]),
    n: &dyn Fn(u64) -> u64,
    draw: &mut dyn FnMut(u64, u64, u64) -> u64,
) {
    let best = [10_000, 100_000, 1_000_000].map(|z| {
        let (mut scratch, mut out) = (vec![0; 2 * z], vec![0; z]);
        let rounds = (0..20_000_000 / z.max(100_000)).map(|_| {
            let draws: Vec<u64> = (0..z as u64).map(|i| draw(i, z as u64, n(z as u64))).collect();
            timed(&mut || shuffle(n(z as u64), &draws, &mut scratch, &mut out)) * 1e6 / z as f64
        });
        rounds.fold(f64::MAX, f64::min)
    });
    println!("{name:58} {:6.2} {:6.2} {:6.2} {:7.2}", best[0], best[1], best[2], best[2] / best[0]);
}

fn growths() {
    let most = |_| u64::MAX;
    let mut served =
        |n: u64, draws: &[u64], scratch: &mut [u64], out: &mut [u64]| assert!(calls::shuffle(n, draws, scratch, out).number == 0);
    let mut array = |n: u64, draws: &[u64], _: &mut [u64], out: &mut [u64]| plain::shuffle_array(n, draws, out);
    let mut map = |_: u64, draws: &[u64], _: &mut [u64], out: &mut [u64]| plain::shuffle_map(draws, out);
    let mut rng = Random::seeded(2);
    let mut random = |i: u64, _: u64, n: u64| rng.from_to(i, n - 1);
    println!("\n{:58} {:>6} {:>6} {:>6} {:>7}", "shuffle, ns a draw", "10^4", "10^5", "10^6", "growth");
    growth("random, of 2^64 - 1", &mut served, &most, &mut random);
    growth("random, of 10 times as many numbers", &mut served, &|z| 10 * z, &mut random);
    growth("random, of 3 times as many numbers", &mut served, &|z| 3 * z, &mut random);
    growth("equal", &mut served, &most, &mut |_, _, n| n - 1);
    growth("clustered", &mut served, &most, &mut |i, z, _| 2 * z + i % 7 * 65_536 + i / 1000);
    growth("all of n", &mut served, &|z| z, &mut random);
    growth("all of n, an array", &mut array, &|z| z, &mut random);
    growth("random, of 2^64 - 1, a map", &mut map, &most, &mut random);
}

/// Best nanoseconds a draw for 10^6 draws from a seed, of ours, plain Rust and plain C, and the ratios of the first to the others. The others write as they
/// go; ours keeps its output where it refuses.
fn drawing(name: &str, n: u64) {
    let (z, seed, limit) = (1_000_000, 20_261_117, 255);
    let [mut a, mut b, mut c] = [(); 3].map(|_| vec![0; z]);
    let times = best(
        20,
        &mut [
            &mut || assert!(calls::draws(n, z as u64, seed, limit, &mut a).number == 0),
            &mut || assert!(plain::draws(n, seed, limit, &mut b)),
            &mut || assert!(plain::c_draws(n, seed, limit, &mut c)),
        ],
    );
    assert!(a == b && a == c);
    let ns: String = times.iter().map(|t| format!(" {:6.2}", t * 1e6 / z as f64)).collect();
    println!("{name:58}{ns} {:7.2} {:7.2}", times[0] / times[1], times[0] / times[2]);
}

fn drawings() {
    println!("\n{:58} {:>6} {:>6} {:>6} {:>7} {:>7}", "10^6 draws from a seed, ns a draw", "ours", "Rust", "C", "/ Rust", "/ C");
    drawing("of 10^6", 1_000_000);
    drawing("of 2^32", 1 << 32);
    drawing("of 2^61 + 12,345", (1 << 61) + 12_345);
    drawing("of 3 * 2^61, a quarter of raw numbers thrown away", 3 << 61);
    drawing("of 2^63 + 1,000,001, half thrown away", (1 << 63) + 1_000_001);
    drawing("of 3 * 2^62, a quarter thrown away", 3 << 62);
    drawing("of 2^64 - 1", u64::MAX);
}

/// Best nanoseconds an event of the list that the sheet of scenarios of h events takes, of ours, plain Rust and plain C, and the ratios of the first to the
/// others. The others write as they go; ours keeps its output where it refuses.
fn sheet(name: &str, scenarios: &[u8], h: usize, g: usize) {
    let m = scenarios.len() / h;
    let mut out = vec![0; m * (7 + 17 * h)];
    let length = plain::c_sheet(scenarios, h, g, &mut out).unwrap()[0] as usize;
    let [mut a, mut b, mut c] = [(); 3].map(|_| vec![0; length]);
    let [mut i, mut j, mut k] = [None; 3];
    let times = best(
        5,
        &mut [
            &mut || {
                i = Some(calls::sheet(scenarios, m as u64, h as u64, g as u64, &mut a))
                    .filter(|told| told.number == 0)
                    .map(|told| told.words)
            },
            &mut || j = plain::sheet(scenarios, h, g, &mut b),
            &mut || k = plain::c_sheet(scenarios, h, g, &mut c),
        ],
    );
    assert!(i.is_some() && i == j && i == k && a == b && a == c);
    let ns: String = times.iter().map(|t| format!(" {:6.2}", t * 1e6 / scenarios.len() as f64)).collect();
    println!("{name:58}{ns} {:7.2} {:7.2}", times[0] / times[1], times[0] / times[2]);
}

fn sheets(rng: &mut Random) {
    println!("\n{:58} {:>6} {:>6} {:>6} {:>7} {:>7}", "sheets, ns an event of the list", "ours", "Rust", "C", "/ Rust", "/ C");
    let mut unrelated = |events: usize, most: u64| -> Vec<u8> { (0..events).map(|_| rng.below(most) as u8).collect() };
    let below_16 = unrelated(10_000_000, 16);
    sheet("10,000 of 1,000 events below 16, unrelated, g 100", &below_16, 1000, 100);
    sheet("10,000 of 1,000 events of any byte, unrelated, g 100", &unrelated(10_000_000, 256), 1000, 100);
    sheet("10,000 of 1,000 events below 10, unrelated, g 100", &unrelated(10_000_000, 10), 1000, 100);
    sheet("1,000 of 1,000 events below 16, unrelated, g 1", &below_16[..1_000_000], 1000, 1);
    sheet("100,000 of 30 events below 16, unrelated, g 5", &below_16[..3_000_000], 30, 5);
    // event 7 comes at most five times, event 15 else: in the order before it the lists begin with moves near the front, after it near the end
    let rig = slow_growth(6, &[32]);
    let others: String = (0..15).map(|e| format!("\t{e}")).collect();
    let last = [b"rig\t16\nord\t15", others.as_bytes(), b"\n", rig.strip_prefix(b"rig\t16\n").unwrap()].concat();
    let (m, h) = (10_000, 1000);
    let (mut cells, mut events) = (vec![0; model::all_rows(h, 192)], vec![0; m as usize * h]);
    for (shared, rig) in [("some", rig), ("nearly all", last)] {
        let told = calls::scenarios(&rig, h as u64, &(0..m).collect::<Vec<u64>>(), &mut cells, &mut events);
        assert!(told.number == 0);
        sheet(&format!("10,000 of 1,000 events in order, {shared} shared, g 10"), &events, h, 10);
    }
}

/// Best microseconds that reading takes, of `gap`, `reply`, `bal` and `day` lines and of the same monitors as `mon`, `go` and `stop` lines. The horizon 1,001
/// is refused once the text is read, so nothing else is timed.
fn reading(name: &str, rules: &str) {
    let moves = lower_first(&written_out(&model::read(rules.as_bytes()).unwrap()));
    let texts = [rules.as_bytes().to_vec(), moves];
    let mut best = [f64::MAX; 2];
    for _ in 0..200 {
        for (b, t) in best.iter_mut().zip(&texts) {
            let mut read = || (0..50).for_each(|_| assert!(calls::count(t, 1001, &mut []).number == 7));
            *b = b.min(timed(&mut read) * 1e3 / 50.0);
        }
    }
    let mut cells = [vec![0; 21 * 1024], vec![0; 21 * 1024]];
    let told = [0, 1].map(|k| calls::count(&texts[k], 20, &mut cells[k]));
    assert!(told[0] == told[1] && cells[0] == cells[1]);
    println!("{name:58} {:8.3} {:8.3} {:7.2}", best[0], best[1], best[0] / best[1]);
}

fn readings() {
    println!("\n{:58} {:>8} {:>8} {:>7}", "reading, us", "lines", "moves", "ratio");
    reading("gap 0 2, of 1 event", "rig\t1\ngap\t0\t2\n");
    reading("reply 0 1 1 1, of 2 events", "rig\t2\nreply\t0\t1\t1\t1\n");
    reading("gap 1 6 and reply 0 1 8 9, of 3 events", "rig\t3\ngap\t1\t6\nreply\t0\t1\t8\t9\n");
    reading("gap 0 32, of 1 event", "rig\t1\ngap\t0\t32\n");
    reading("gap 0 32 and reply 1 2 1 31, of 16 events", "rig\t16\ngap\t0\t32\nreply\t1\t2\t1\t31\n");
    let four = "rig\t16\ngap\t0\t5\ngap\t1\t6\nreply\t0\t2\t2\t4\nreply\t1\t3\t1\t4\n";
    reading("two gaps and two replies of 5 or 6 states, of 16 events", four);
    reading("bal 0 1 and 1 amp, of 1 event", "rig\t1\nbal\t0\t1\namp\t0\t1\n");
    reading("bal -2 2 and 4 amps, of 4 events", "rig\t4\nbal\t-2\t2\namp\t0\t1\namp\t1\t-1\namp\t2\t-1\namp\t3\t1\n");
    reading("bal -15 15 and no amp, of 16 events", "rig\t16\nbal\t-15\t15\n");
    let amps: String = (0..16).map(|e| format!("amp\t{e}\t{}\n", e - 8)).collect();
    reading("bal -15 15 and 16 amps, of 16 events", &format!("rig\t16\nbal\t-15\t15\n{amps}"));
    let three = format!("rig\t16\nbal\t-15\t0\n{amps}bal\t0\t15\n{amps}bal\t-1\t2\n{amps}");
    reading("three bals of 16, 16 and 4 states, 48 amps, of 16 events", &three);
    reading("day 2 and 1 open, of 1 event", "rig\t1\nday\t2\nopen\t0\t0\t1\n");
    reading("day 6 and 4 opens, of 5 events", "rig\t5\nday\t6\nopen\t0\t3\t5\nopen\t1\t5\t6\nopen\t1\t0\t1\nopen\t4\t1\t3\n");
    reading("day 32 and no open, of 16 events", "rig\t16\nday\t32\n");
    let opens: String = (0..16).map(|e| format!("open\t{e}\t{e}\t{}\n", e + 16)).collect();
    reading("day 32 and 16 opens, of 16 events", &format!("rig\t16\nday\t32\n{opens}"));
    reading("day 32 and 160 opens, of 16 events", &format!("rig\t16\nday\t32\n{}", opens.repeat(10)));
    reading("two days of 32 states, 32 opens, of 16 events", &format!("rig\t16\nday\t32\n{opens}day\t32\n{opens}"));
}

fn main() {
    let rng = &mut Random::seeded(1);
    println!(
        "{:62} {:>10} {:>10} {:>10} {:>10} {:>7} {:>7} {:>7}",
        "", "ours ms", "Rust ms", "C ms", "C rows ms", "/ Rust", "/ C", "/ rows"
    );
    let [two, four] = [&[32, 32][..], &[8, 4, 8, 4]].map(|monitors| full_rig(16, monitors, rng));
    let (one_way, two_ways, path) = (slow_growth(1, &[32, 32]), slow_growth(4, &[32, 8]), chain(32, 32, 1, End::Dead));
    let whole = format!("a text of {} bytes with every move of S 32, 32, h 0", two.len());
    let cases: [Case; 7] = [
        ("dense: 16 ways a state, P 1,024 of 2 monitors, h 1,000", 20, &two, 1000),
        ("dense: 16 ways a state, P 1,024 of 4 monitors, h 1,000", 20, &four, 1000),
        ("dense: 16 ways a state, P 1,024, no full cell, h 15", 200, &two, 15),
        ("sparse: 1 way, P 1,024, no full cell, h 1,000", 20, &one_way, 1000),
        ("sparse: 1 or 2 ways, P 1,024, no full cell, h 1,000", 20, &two_ways, 1000),
        ("a dead path of 1,024 joint states, h 0", 20, &path, 0),
        (&whole, 50, &two, 0),
    ];
    cases.iter().for_each(|&(name, rounds, t, h)| count(&format!("count, {name}"), rounds, t, h));
    let slow = slow_growth(6, &[32]);
    scenarios("20,000 scenarios of 1,000 events, sparse, P 192", &slow, 1000, 20_000, rng);
    scenarios("200,000 scenarios of 30 events, sparse, P 192", &slow, 30, 200_000, rng);
    lines("10,000 lines of a listing, 30 events below 10", 10_000, 30, 10, rng);
    lines("10,000 lines of a listing, 30 events below 16", 10_000, 30, 16, rng);
    lines("1,000 lines of a listing, 1,000 events below 10", 1_000, 1_000, 10, rng);
    lines("1,000 lines of a listing, 1,000 events below 16", 1_000, 1_000, 16, rng);
    let full = 1_000_000;
    shuffle("shuffle, all of 10^6, against an array", full, (0..full).map(|i| rng.from_to(i, full - 1)).collect(), true);
    shuffle("shuffle, all of 10^6, against a map", full, (0..full).map(|i| rng.from_to(i, full - 1)).collect(), false);
    let most = u64::MAX;
    shuffle("shuffle, 10^5 of 2^64 - 1, against a map", most, (0..100_000).map(|i| rng.from_to(i, most - 1)).collect(), false);
    shuffle(
        "shuffle, 10^5 clustered draws of 2^64 - 1, against a map",
        most,
        (0..100_000u64).map(|i| 200_000 + i % 7 * 65_536 + i / 1000).collect(),
        false,
    );
    shuffle("shuffle, 10^5 equal draws, against a map", most, vec![most - 1; 100_000], false);
    forwards(&cases, rng);
    horizons(rng);
    smalls(rng);
    readings();
    growths();
    drawings();
    sheets(rng);
}
