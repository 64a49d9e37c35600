//! Compares the C functions with an independent implementation of the papers: every word told, and every element of every lent buffer and
//! of the guards around it. The last line is the number of comparisons and of differences; the exit status is 0 only without any.
use outside::brute::{sequences, Judged, Runs};
use outside::calls::{self, Told};
use outside::guarded::{any_words, bytes, noise_bytes, noise_words, words, Fence, Guarded};
use outside::listing::scenario_line;
use outside::model::{self, Kind, Monitor, Refusal, Rig};
use outside::random::Random;
use outside::rules::{self, admitted, all_marked, in_hours, intervals, steps, within, Chosen, Rule};
use outside::sheets::{self, shared, Done};
use outside::texts::{self, damage, endless, from_state_0, lower_first, other_bal, other_day, other_marks, other_order, other_rules};
use outside::texts::{chain, other_start, ruled, slow_growth, text, upward, written_out, wrong_signs, End, Shape};
use std::collections::{BTreeMap, BTreeSet, HashSet};
use std::slice::from_ref;

#[derive(Default)]
struct Tally {
    comparisons: u64,
    differences: u64,
    /// By call and number expected: how many comparisons, and how many differed.
    answers: BTreeMap<(&'static str, u64), (u64, u64)>,
    /// How many random rigs were served that begin in another joint state than 0.
    begun: u64,
    /// How many random rigs were served whose events are not compared lower first.
    ordered: u64,
    /// By word of a line and number of refusal: how many random texts were refused for such a line.
    lines: BTreeMap<(&'static str, u64), u64>,
    /// By word of a line and of the latest monitor: how many random texts were refused 5 for a line that isn't that monitor's.
    others: BTreeMap<(&'static str, &'static str), u64>,
    /// By word of a line and cause: how many random texts were refused for a `bal`, `amp`, `day` or `open` line with this cause alone.
    causes: BTreeMap<(&'static str, &'static str), u64>,
    /// By kind of monitor: how many random rigs were served that have one. And how many that have two `bal` or `day`, no `mon`, or only `bal` or `day`.
    kinds: BTreeMap<&'static str, u64>,
    /// How many random rigs were served that have a stoppable state, and how many of these also a live state without any scenario of the horizon.
    stoppable: u64,
    vain: u64,
    /// How many random rigs have no scenario of the horizon although their start is live.
    over: u64,
    /// How many small rigs were served at one horizon and have no scenario of the next.
    ending: u64,
    /// How many sequences of small rigs are refused 14 at an event before which no scenario goes on already.
    late: u64,
    /// How many sequences are admitted by the sentences and can't be carried on.
    dropped: u64,
    /// By the kinds of the monitors: how many rigs with scenarios were compared with their sentences.
    mixed: BTreeMap<Vec<&'static str>, u64>,
    /// How many rigs of such lines were served whose long sequences were judged by their sentences.
    admitted: u64,
    /// How many lines had too short an output, so that nothing is written.
    short: u64,
    /// How many horizons of rigs have fewer scenarios than 2^64 - 1, and how many have none, where a shorter horizon has that many or more.
    fewer: u64,
    gone: u64,
    /// How many Draws calls were served with raw numbers thrown away.
    thrown: u64,
    /// By place, that from 8 on as 8: how many Draws calls were refused 19 there.
    ended: BTreeMap<u64, u64>,
    /// By cause: how many Sheet calls were refused 12.
    lacking: BTreeMap<&'static str, u64>,
    /// By how far the start shared with the scenario before goes, g from 3 up to h: how many scenarios of served sheets.
    starts: BTreeMap<&'static str, u64>,
    /// By the digits of the slot that it is to load: how many scenarios of served sheets but the first of each.
    slots: BTreeMap<usize, u64>,
}

impl Tally {
    /// Notes a comparison; `wrong` says what differs.
    fn note(&mut self, call: &'static str, number: u64, wrong: Option<String>, input: impl FnOnce() -> String) {
        self.comparisons += 1;
        let seen = self.answers.entry((call, number)).or_default();
        seen.0 += 1;
        if let Some(what) = wrong {
            seen.1 += 1;
            self.differences += 1;
            if self.differences <= 10 {
                println!("{call}: {what}\n  {}", input());
            }
        }
    }
}

fn told_differs(told: Told, number: u64, words: [u64; 2]) -> Option<String> {
    (told != Told { number, words }).then(|| format!("told {} {:?}, expected {number} {words:?}", told.number, told.words))
}

fn named<T: Copy + PartialEq>(name: &str, now: &Guarded<T>, was: &Guarded<T>, expected: &[T], free: usize) -> Option<String> {
    now.differs(was, expected, free).map(|d| format!("{name}: {d}"))
}

fn shown(t: &[u8]) -> String {
    format!("text {:?}", String::from_utf8_lossy(&t[..t.len().min(400)]))
}

/// P; or 3, where the text isn't readable.
fn states(rig: &Result<Rig, Refusal>) -> usize {
    rig.as_ref().map_or(3, Rig::joint_states)
}

/// A call of the library, and what is expected of it.
struct Call<Library, Expected> {
    name: &'static str,
    library: Library,
    expected: Expected,
}

/// What a count tells of a text and a horizon, with cells to write to; and what is expected of it, by what they hold before.
type Count = Call<fn(&[u8], u64, &mut [u64]) -> Told, fn(&[u8], u64, &[u64]) -> model::Expected>;

const BACKWARD: Count = Call { name: "count", library: calls::count, expected: model::count };
const FORWARD: Count = Call { name: "count_forward", library: calls::count_forward, expected: model::count_forward };
/// The forward count beside the other one of the library.
const BESIDE_COUNT: Count = Call { name: "beside count", library: calls::count_forward, expected: counted_with_all_rows };

/// What the library counts with cells enough for all rows; the cells as the forward count leaves them.
fn counted_with_all_rows(t: &[u8], h: u64, cells: &[u64]) -> model::Expected {
    let (rows, states) = (h as usize, states(&model::read(t)));
    let Told { number, words } = calls::count(t, h, &mut vec![0; model::all_rows(rows, states)]);
    model::Expected { number, words, cells: cells.to_vec(), free: model::left_free(number, model::two_rows(rows, states)), out: vec![] }
}

/// What a count is lent: a text, a horizon, how many cells, and what makes them.
type Room<'a> = (&'a [u8], u64, usize, fn(usize, &mut Random) -> Guarded<u64>);

/// Compares one count, and gives back what is expected of it.
fn counted(tally: &mut Tally, rng: &mut Random, call: &Count, (t, h, cells, made): Room) -> model::Expected {
    let (t, was) = (bytes(t, rng), made(cells, rng));
    let (t0, mut now) = (t.clone(), was.clone());
    let told = (call.library)(t.lent(), h, now.lend());
    let want = (call.expected)(t0.lent(), h, was.lent());
    let written = named("cells", &now, &was, &want.cells, want.free).or(named("text", &t, &t0, t0.lent(), 0));
    let wrong = told_differs(told, want.number, want.words).or(written);
    tally.note(call.name, want.number, wrong, || format!("h {h}, {cells} cells, {}", shown(t.lent())));
    want
}

fn count_forward(tally: &mut Tally, rng: &mut Random, t: &[u8], h: u64, cells: usize) -> model::Expected {
    counted(tally, rng, &FORWARD, (t, h, cells, any_words))
}

/// Compares one Count call, and gives back what is expected of it. On the same text and horizon it compares the forward count too, which is expected to
/// tell the same unless the cells of either are too few; with numbers of its own, so that all others are as without it.
fn count(tally: &mut Tally, rng: &mut Random, t: &[u8], h: u64, cells: usize) -> model::Expected {
    let own = &mut rng.clone();
    let room = about(own, model::two_rows(h.min(1000) as usize, states(&model::read(t))));
    let forward = count_forward(tally, own, t, h, room);
    let want = counted(tally, rng, &BACKWARD, (t, h, cells, noise_words));
    let same = (forward.number, forward.words) == (want.number, want.words);
    assert!(same || [forward.number, want.number].contains(&8), "the independent counts, h {h}, {}", shown(t));
    want
}

/// What a scenarios call tells of a text, a horizon and a list, with cells and output to write to; and what is expected of it, by what they hold before.
type Scenarios = Call<fn(&[u8], u64, &[u64], &mut [u64], &mut [u8]) -> Told, fn(&[u8], u64, &[u64], &[u64], &[u8]) -> model::Expected>;

const ALL_ROWS: Scenarios = Call { name: "scenarios", library: calls::scenarios, expected: model::scenarios };
const FEW_ROWS: Scenarios = Call { name: "scenarios_small", library: calls::scenarios_small, expected: model::scenarios_small };
/// The small scenarios call beside the other one of the library.
const BESIDE: Scenarios = Call { name: "beside all rows", library: calls::scenarios_small, expected: with_all_rows };

/// What the library tells and writes with cells enough for all rows; the cells as the small scenarios call leaves them.
fn with_all_rows(t: &[u8], h: u64, list: &[u64], cells: &[u64], out: &[u8]) -> model::Expected {
    let (rows, states) = (h as usize, states(&model::read(t)));
    let mut out = out.to_vec();
    let Told { number, words } = calls::scenarios(t, h, list, &mut vec![0; model::all_rows(rows, states)], &mut out);
    model::Expected { number, words, cells: cells.to_vec(), free: model::left_free(number, model::few_rows(rows, states)), out }
}

/// What a scenarios call is lent: a text, a horizon, a list, and how many cells and bytes of output.
type Lent<'a> = (&'a [u8], u64, &'a [u64], usize, usize);

/// Compares one scenarios call, and gives back what is expected of it.
fn listed(tally: &mut Tally, rng: &mut Random, call: &Scenarios, (t, h, list, cells, out): Lent) -> model::Expected {
    let (t, list, was, out_was) = (bytes(t, rng), words(list, rng), noise_words(cells, rng), noise_bytes(out, rng));
    let (t0, list0, mut now, mut out_now) = (t.clone(), list.clone(), was.clone(), out_was.clone());
    let told = (call.library)(t.lent(), h, list.lent(), now.lend(), out_now.lend());
    let want = (call.expected)(t.lent(), h, list.lent(), was.lent(), out_was.lent());
    let wrong = told_differs(told, want.number, want.words)
        .or(named("cells", &now, &was, &want.cells, want.free))
        .or(named("output", &out_now, &out_was, &want.out, 0))
        .or(named("list", &list, &list0, list0.lent(), 0))
        .or(named("text", &t, &t0, t0.lent(), 0));
    tally.note(call.name, want.number, wrong, || {
        let first = &list.lent()[..list.lent().len().min(20)];
        format!("h {h}, list of {} {first:?}, {cells} cells, {out} bytes, {}", list.lent().len(), shown(t.lent()))
    });
    want
}

fn scenarios(tally: &mut Tally, rng: &mut Random, t: &[u8], h: u64, list: &[u64], cells: usize, out: usize) -> model::Expected {
    listed(tally, rng, &ALL_ROWS, (t, h, list, cells, out))
}

fn scenarios_small(tally: &mut Tally, rng: &mut Random, t: &[u8], h: u64, list: &[u64], cells: usize, out: usize) -> model::Expected {
    listed(tally, rng, &FEW_ROWS, (t, h, list, cells, out))
}

fn index(tally: &mut Tally, rng: &mut Random, t: &[u8], sequence: &[u8], cells: usize) -> model::Expected {
    let (t, sequence, was) = (bytes(t, rng), bytes(sequence, rng), noise_words(cells, rng));
    let (t0, sequence0, mut now) = (t.clone(), sequence.clone(), was.clone());
    let told = calls::index(t.lent(), sequence.lent(), now.lend());
    let want = model::index(t.lent(), sequence.lent(), was.lent());
    let wrong = told_differs(told, want.number, want.words)
        .or(named("cells", &now, &was, &want.cells, 0))
        .or(named("sequence", &sequence, &sequence0, sequence0.lent(), 0))
        .or(named("text", &t, &t0, t0.lent(), 0));
    tally.note("index", want.number, wrong, || format!("sequence {:?}, {cells} cells, {}", sequence.lent(), shown(t.lent())));
    want
}

/// Compares one Shuffle call, and gives back the output as the library left it.
fn shuffle(tally: &mut Tally, rng: &mut Random, n: u64, draws: &[u64], scratch: usize, out: usize) -> Vec<u64> {
    let (draws, was, out_was) = (words(draws, rng), noise_words(scratch, rng), noise_words(out, rng));
    let (draws0, mut now, mut out_now) = (draws.clone(), was.clone(), out_was.clone());
    let told = calls::shuffle(n, draws.lent(), now.lend(), out_now.lend());
    let ((number, place), want) = model::shuffle(n, draws.lent(), scratch, out_was.lent());
    let free = if number == 0 { 2 * draws.lent().len() } else { 0 };
    let wrong = told_differs(told, number, [place, 0])
        .or(named("scratch", &now, &was, was.lent(), free))
        .or(named("output", &out_now, &out_was, &want, 0))
        .or(named("draws", &draws, &draws0, draws0.lent(), 0));
    tally.note("shuffle", number, wrong, || {
        format!("n {n}, {} draws {:?}, {scratch} scratch, {out} output", draws.lent().len(), &draws.lent()[..draws.lent().len().min(20)])
    });
    out_now.lent().to_vec()
}

/// Compares one Draws call, and gives back what is expected of it and the output as the library left it. Where it is served, the draws are valid.
fn draws(tally: &mut Tally, rng: &mut Random, n: u64, z: u64, seed: u64, limit: u8, out: usize) -> (Refusal, Vec<u64>) {
    let was = any_words(out, rng);
    let mut now = was.clone();
    let told = calls::draws(n, z, seed, limit, now.lend());
    let ((number, place), want) = model::draws(n, z, seed, limit, was.lent());
    let valid = number != 0 || now.lent().iter().zip(0..z).all(|(d, i)| (i..n).contains(d));
    let wrong = told_differs(told, number, [place, 0])
        .or(named("output", &now, &was, &want, 0))
        .or((!valid).then(|| "a draw that isn't valid".into()));
    tally.note("draws", number, wrong, || format!("n {n}, {z} draws, seed {seed}, limit {limit}, {out} output"));
    if number == 19 {
        *tally.ended.entry(place.min(8)).or_default() += 1;
    }
    ((number, place), now.lent().to_vec())
}

/// What a Sheet call is lent and told: scenarios, m, h, g and how many bytes of output.
type Asked<'a> = (&'a [u8], u64, u64, u64, usize);

/// Compares one Sheet call, and gives back what is expected of it. What the library wrote where it is served is run on the bench.
fn sheet(tally: &mut Tally, rng: &mut Random, (scenarios, m, h, g, out): Asked) -> model::Expected {
    let (scenarios, was) = (bytes(scenarios, rng), noise_bytes(out, rng));
    let (scenarios0, mut now) = (scenarios.clone(), was.clone());
    let told = calls::sheet(scenarios.lent(), m, h, g, now.lend());
    let want = model::sheet(scenarios0.lent(), m, h, g, was.lent());
    let wrong = told_differs(told, want.number, want.words).or(named("output", &now, &was, &want.out, 0)).or(named(
        "scenarios",
        &scenarios,
        &scenarios0,
        scenarios0.lent(),
        0,
    ));
    let lent = scenarios0.lent();
    let input = || format!("m {m}, h {h}, g {g}, {} bytes {:?}, {out} output", lent.len(), &lent[..lent.len().min(40)]);
    tally.note("sheet", want.number, wrong, input);
    match want.number {
        0 => {
            let written = now.lent().get(..told.words[0] as usize).unwrap_or(now.lent());
            let list: Vec<&[u8]> = (0..m as usize).map(|k| &lent[k * h as usize..(k + 1) * h as usize]).collect();
            let done = sheets::run(written, h as usize, g);
            tally.note(
                "on the bench",
                0,
                done.as_ref().map_or_else(|e| Some(e.clone()), |done| astray(done, &list, h, told.words[1])),
                input,
            );
            started(tally, &list, h, g);
        }
        12 => {
            let cause = if (lent.len() as u128) < m as u128 * h as u128 { "fewer bytes" } else { "shorter output" };
            *tally.lacking.entry(cause).or_default() += 1;
        }
        _ => (),
    }
    want
}

/// What is wrong with what a sheet did on the bench, unless it arrived at every scenario of the list, in order, and ran as many events as were told.
fn astray(done: &Done, list: &[&[u8]], h: u64, total: u64) -> Option<String> {
    let left: u64 = done.loaded.iter().map(|&depth| h - depth as u64).sum();
    let other = (done.arrived != list).then(|| format!("arrived at {} scenarios, others than given", done.arrived.len()));
    other.or(([done.events, left] != [total; 2]).then(|| format!("ran {} events, {left} after the loads, told {total}", done.events)))
}

/// Counts how the starts that the scenarios of a list share lie to the depths of g, and the slots that are loaded.
fn started(tally: &mut Tally, list: &[&[u8]], h: u64, g: u64) {
    for two in list.windows(2) {
        let within = shared(two[0], two[1]) as u64;
        *tally.slots.entry((within / g).to_string().len()).or_default() += 1;
        if (3..=h).contains(&g) {
            let start = match within % g {
                _ if within == 0 => "none",
                0 if within == h => "all, a depth",
                _ if within == h => "all",
                0 => "a depth",
                1 => "one more",
                rest if rest == g - 1 => "one less",
                _ => "between",
            };
            *tally.starts.entry(start).or_default() += 1;
        }
    }
}

/// The worked examples of the paper and of its table of refusals, with the answers written there.
fn worked(tally: &mut Tally, rng: &mut Random) {
    use texts::{A, A_FROM_1, A_GAP, A_ORDERED, B, B_STOPS, CLASH, DAY, EITHER, F, LAST, ONE, REPLY, SWING};
    let at = |t: &str, h: u64, cells: usize, number: u64, words: [u64; 2]| (t.as_bytes().to_vec(), h, cells, number, words);
    let two = "rig\t1\nmon\t32\nmon\t32\n".to_string();
    let mut counts = vec![
        at(A, 0, 2, 0, [1, 1]),
        at(A, 1, 4, 0, [2, 1]),
        at(A, 2, 6, 0, [3, 1]),
        at(A, 3, 8, 0, [5, 1]),
        at(B, 1, 8, 0, [1, 3]),
        at(F, 63, 64, 0, [9223372036854775808, 1]),
        at(F, 64, 65, 10, [0, 0]),
        at(ONE, 1000, 1001, 0, [1, 1]),
        at(ONE, 1001, 1002, 7, [0, 0]),
        at(A, 3, 7, 8, [0, 0]),
        at(&two, 0, 1024, 9, [0, 0]),
        at(&two, 0, 1023, 8, [0, 0]),
        at("rig\t1\nmon\t1\n", 1, 2, 9, [0, 0]),
        at("rig\t2\nmon\n", 1, 2, 2, [2, 0]),
        at("rig\t17\n", 1, 2, 3, [1, 0]),
        at("", 1, 2, 5, [1, 0]),
        at(&(two.clone() + "mon\t2\n"), 1, 2, 6, [4, 0]),
        at("rig\t1\nmon\t1\ngo\t0\t0\t0\ngo\t0\t0\t0\n", 1, 2, 4, [4, 0]),
        at(&"\n".repeat(65536), 1, 2, 1, [0, 0]),
        at(&"\n".repeat(65535), 1, 2, 2, [1, 0]),
        at("rig\t2\nmon\t2\ngo\t0\t0\t0\ngo\t1\t0\t1\ngo\t1\t1\t1\n", 100, 202, 0, [1, 1]),
        // a start: A from its state 1 has the sequences of A that begin with 0, without that 0
        at(A_FROM_1, 0, 2, 0, [1, 1]),
        at(A_FROM_1, 3, 8, 0, [3, 1]),
        at("rig\t2\nmon\t2\t1\ngo\t0\t0\t0\ngo\t1\t0\t1\ngo\t1\t1\t1\n", 100, 202, 10, [0, 0]),
        at("rig\t1\nmon\t2\t1\ngo\t0\t0\t0\n", 0, 2, 9, [0, 0]),
        at("rig\t1\nmon\t2\t2\n", 0, 2, 3, [2, 0]),
        at("rig\t1\nmon\t1\t0\n", 0, 1, 9, [0, 0]),
        at("rig\t1\nmon\t33\t0\n", 0, 2, 3, [2, 0]),
        at("rig\t1\nmon\t2\t100000\n", 0, 2, 2, [2, 0]),
        at("rig\t1\nmon\t2\t1\t0\n", 0, 2, 2, [2, 0]),
        at("rig\t1\nmon\t2\t\n", 0, 2, 2, [2, 0]),
        at("mon\t2\t2\n", 0, 2, 5, [1, 0]),
        at(&(two.clone() + "mon\t2\t2\n"), 1, 2, 3, [4, 0]),
        at(&(two.clone() + "mon\t2\t1\n"), 1, 2, 6, [4, 0]),
        // `ord`: as many scenarios as without it; all its cases, in their order
        at(A_ORDERED, 3, 8, 0, [5, 1]),
        at("rig\t2\nord\t1\n", 0, 2, 2, [2, 0]),
        at("rig\t2\nord\t1\t0\t2\n", 0, 2, 2, [2, 0]),
        at("rig\t2\nord\n", 0, 2, 2, [2, 0]),
        at("rig\t2\nord\t5\n", 0, 2, 2, [2, 0]),
        at("rig\t2\nord\t1\tx\n", 0, 2, 2, [2, 0]),
        at("rig\t2\nord\t1\t2\n", 0, 2, 3, [2, 0]),
        at("rig\t2\nord\t2\t2\n", 0, 2, 3, [2, 0]),
        at("rig\t2\nord\t1\t99999\n", 0, 2, 3, [2, 0]),
        at("rig\t2\nord\t1\t256\n", 0, 2, 3, [2, 0]),
        at("rig\t2\nord\t1\t1\n", 0, 2, 16, [2, 0]),
        at("rig\t1\nord\t0\n", 0, 2, 5, [3, 0]),
        at("ord\n", 0, 2, 5, [1, 0]),
        at("ord\t0\t0\n", 0, 2, 5, [1, 0]),
        at("ord\t0\t\n", 0, 2, 2, [1, 0]),
        at("rig\t2\nord\t1\t0\nord\t1\t0\n", 0, 2, 5, [3, 0]),
        at("rig\t2\nmon\t1\nord\n", 0, 2, 5, [3, 0]),
        at("rig\t2\nmon\t1\nord\t9\t9\t9\n", 0, 2, 5, [3, 0]),
        at("rig\t2\nmon\t1\nord\t-1\n", 0, 2, 2, [3, 0]),
        at(&format!("rig\t1\nmon\t1\nord{}\n", "\t0".repeat(30_000)), 0, 2, 5, [3, 0]),
        at(&format!("rig\t16\nord{}\n", "\t0".repeat(30_000)), 0, 2, 2, [2, 0]),
        at("rig\t17\nord\t1\t1\n", 0, 2, 3, [1, 0]),
        // `stop`: served at one horizon and 'none' at the next; marks that do nothing; all its cases, in their order
        at(LAST, 0, 2, 0, [1, 1]),
        at(LAST, 1, 4, 0, [1, 1]),
        at(LAST, 2, 6, 9, [0, 0]),
        at("rig\t1\nmon\t1\nstop\t0\n", 0, 1, 0, [1, 1]),
        at("rig\t1\nmon\t1\nstop\t0\n", 1, 2, 9, [0, 0]),
        at("rig\t2\nmon\t2\nstop\t0\n", 0, 2, 0, [1, 2]),
        at("rig\t1\nmon\t2\nstop\t1\n", 0, 2, 9, [0, 0]),
        at(EITHER, 1, 8, 0, [2, 2]),
        at(EITHER, 2, 12, 0, [1, 2]),
        at(B_STOPS, 1, 8, 0, [2, 1]),
        at(B_STOPS, 2, 12, 0, [2, 1]),
        at(&B_STOPS.replacen("stop\t1\n", "", 1), 1, 8, 0, [1, 3]),
        at(&B_STOPS.replacen("stop\t1\n", "stop\t0\n", 1), 1, 8, 0, [1, 2]),
        at(&format!("{F}stop\t0\n"), 64, 65, 10, [0, 0]),
        at("rig\t1\nmon\t32\nstop\t31\n", 0, 32, 9, [0, 0]),
        at("rig\t1\nmon\t2\nstop\t1\nstop\t0\nmon\t2\nstop\t1\nstop\t0\n", 0, 4, 0, [1, 1]),
        at("rig\t1\nmon\t2\nstop\n", 0, 2, 2, [3, 0]),
        at("rig\t1\nmon\t2\nstop\t\n", 0, 2, 2, [3, 0]),
        at("rig\t1\nmon\t2\nstop\t0\t1\n", 0, 2, 2, [3, 0]),
        at("rig\t1\nmon\t2\nstop\t9\t9\t9\n", 0, 2, 2, [3, 0]),
        at("rig\t1\nmon\t2\nstop\tx\n", 0, 2, 2, [3, 0]),
        at("rig\t1\nmon\t2\nstop\t00\n", 0, 2, 2, [3, 0]),
        at("rig\t1\nmon\t2\nstop\t100000\n", 0, 2, 2, [3, 0]),
        at("rig\t1\nmon\t2\nstop\t0", 0, 2, 2, [3, 0]),
        at("rig\t1\nstop\t\n", 0, 2, 2, [2, 0]),
        at("stop\n", 0, 2, 2, [1, 0]),
        at("stop\t0\n", 0, 2, 5, [1, 0]),
        at("rig\t1\nstop\t0\n", 0, 2, 5, [2, 0]),
        at("rig\t1\nstop\t99999\n", 0, 2, 5, [2, 0]),
        at("rig\t2\nord\t1\t0\nstop\t0\n", 0, 2, 5, [3, 0]),
        at("rig\t1\nmon\t2\nstop\t2\n", 0, 2, 3, [3, 0]),
        at("rig\t1\nmon\t32\nstop\t32\n", 0, 2, 3, [3, 0]),
        at("rig\t1\nmon\t2\nstop\t256\n", 0, 2, 3, [3, 0]),
        at("rig\t1\nmon\t2\nstop\t65536\n", 0, 2, 3, [3, 0]),
        at("rig\t1\nmon\t3\nmon\t2\nstop\t2\n", 0, 2, 3, [4, 0]),
        at("rig\t1\nmon\t2\nstop\t2\nstop\t2\n", 0, 2, 3, [3, 0]),
        at(&format!("{LAST}stop\t1\n"), 0, 2, 4, [5, 0]),
        at("rig\t1\nmon\t2\nstop\t1\ngo\t0\t0\t1\nstop\t0\nstop\t1\n", 0, 2, 4, [6, 0]),
        at(&format!("{LAST}go\t0\t0\t1\n"), 0, 2, 4, [5, 0]),
        // `gap` and `reply`: counted by hand, at their longest too; beside each other and beside `mon`
        at("rig\t1\ngap\t0\t2\n", 0, 2, 0, [1, 1]),
        at("rig\t1\ngap\t0\t2\n", 1, 4, 0, [1, 1]),
        at("rig\t1\ngap\t0\t2\n", 2, 6, 9, [0, 0]),
        at(A_GAP, 3, 8, 0, [5, 1]),
        at(A_GAP, 3, 7, 8, [0, 0]),
        at("rig\t3\ngap\t0\t3\n", 3, 12, 0, [20, 1]),
        at("rig\t2\ngap\t0\t32\n", 32, 1056, 0, [33, 1]),
        at("rig\t2\ngap\t0\t32\n", 33, 1088, 0, [35, 1]),
        at(REPLY, 2, 9, 0, [8, 1]),
        at(REPLY, 3, 12, 0, [20, 1]),
        at("rig\t2\nreply\t0\t1\t1\t1\n", 3, 8, 0, [5, 1]),
        at("rig\t2\nreply\t0\t1\t2\t2\n", 3, 12, 0, [4, 1]),
        at("rig\t2\nreply\t0\t1\t31\t31\n", 32, 1056, 0, [33, 1]),
        at("rig\t2\nreply\t0\t1\t31\t31\n", 33, 1088, 0, [35, 1]),
        at("rig\t2\nreply\t0\t1\t1\t31\nreply\t1\t0\t1\t31\n", 0, 1024, 0, [1, 2]),
        at("rig\t2\nreply\t0\t1\t1\t31\nreply\t1\t0\t1\t31\n", 1000, 1_025_024, 0, [2, 2]),
        at(CLASH, 1, 12, 0, [2, 2]),
        at(CLASH, 2, 18, 0, [1, 2]),
        at(CLASH, 3, 24, 9, [0, 0]),
        at("rig\t2\nmon\t1\ngo\t0\t0\t0\ngap\t0\t2\n", 0, 2, 9, [0, 0]),
        at("rig\t2\nmon\t1\ngo\t0\t0\t0\nstop\t0\ngap\t0\t2\n", 1, 4, 0, [1, 1]),
        at("rig\t2\nmon\t1\ngo\t0\t0\t0\nstop\t0\ngap\t0\t2\n", 2, 6, 9, [0, 0]),
        at("rig\t1\ngap\t0\t2\nmon\t1\ngo\t0\t0\t0\nstop\t0\n", 1, 4, 0, [1, 1]),
        at("rig\t16\ngap\t15\t32\nreply\t15\t0\t31\t31\n", 0, 1024, 0, [1, 1]),
        // all their cases, in their order
        at("rig\t1\ngap\n", 0, 2, 2, [2, 0]),
        at("rig\t1\ngap\t0\n", 0, 2, 2, [2, 0]),
        at("rig\t1\ngap\t0\t\n", 0, 2, 2, [2, 0]),
        at("rig\t1\ngap\t0\t2\t0\n", 0, 2, 2, [2, 0]),
        at("rig\t1\ngap\t9\t99\t9\n", 0, 2, 2, [2, 0]),
        at("rig\t1\ngap\t0\t02\n", 0, 2, 2, [2, 0]),
        at("rig\t1\ngap\t00\t2\n", 0, 2, 2, [2, 0]),
        at("rig\t1\ngap\t0\t100000\n", 0, 2, 2, [2, 0]),
        at("rig\t1\ngap\t0\t-2\n", 0, 2, 2, [2, 0]),
        at("rig\t1\ngap\t0\t2", 0, 2, 2, [2, 0]),
        at("rig\t1\nGAP\t0\t2\n", 0, 2, 2, [2, 0]),
        at("gap\t0\n", 0, 2, 2, [1, 0]),
        at("rig\t2\nreply\n", 0, 2, 2, [2, 0]),
        at("rig\t2\nreply\t0\t1\t1\n", 0, 2, 2, [2, 0]),
        at("rig\t2\nreply\t0\t0\t3\n", 0, 2, 2, [2, 0]),
        at("rig\t2\nreply\t0\t1\t1\t2\t3\n", 0, 2, 2, [2, 0]),
        at("rig\t2\nreply\t0\t1\t1\t\n", 0, 2, 2, [2, 0]),
        at("rig\t2\nreply\t0\t0\t1\tx\n", 0, 2, 2, [2, 0]),
        at("rig\t2\nreply\t0\t1\t01\t2\n", 0, 2, 2, [2, 0]),
        at("rig\t2\nreply\t0\t1\t1\t2", 0, 2, 2, [2, 0]),
        at("rig\t2\nreply\t0\t0\t1\t2", 0, 2, 2, [2, 0]),
        at("rig\t2\nreplies\t0\t1\t1\t2\n", 0, 2, 2, [2, 0]),
        at("gap\t0\t2\n", 0, 2, 5, [1, 0]),
        at("gap\t99\t99\n", 0, 2, 5, [1, 0]),
        at("reply\t0\t0\t9\t1\n", 0, 2, 5, [1, 0]),
        at("rig\t2\ngap\t0\t2\nrig\t2\n", 0, 2, 5, [3, 0]),
        at("rig\t2\ngap\t0\t2\nord\t1\t0\n", 0, 2, 5, [3, 0]),
        at("rig\t2\ngap\t0\t2\ngo\t0\t0\t0\n", 0, 2, 5, [3, 0]),
        at("rig\t2\ngap\t0\t2\ngo\t0\t0\t1\n", 0, 2, 5, [3, 0]),
        at("rig\t2\ngap\t0\t2\ngo\t99\t99\t99\n", 0, 2, 5, [3, 0]),
        at("rig\t2\ngap\t0\t2\ngo\t0\t0\n", 0, 2, 2, [3, 0]),
        at("rig\t2\ngap\t0\t2\nstop\t0\n", 0, 2, 5, [3, 0]),
        at("rig\t2\ngap\t0\t2\nstop\t99\n", 0, 2, 5, [3, 0]),
        at("rig\t2\nreply\t0\t1\t1\t1\ngo\t1\t0\t0\n", 0, 2, 5, [3, 0]),
        at("rig\t2\nreply\t0\t1\t1\t1\nstop\t1\n", 0, 2, 5, [3, 0]),
        at("rig\t2\nreply\t0\t1\t1\t1\nstop\t2\n", 0, 2, 5, [3, 0]),
        at("rig\t1\nmon\t1\ngap\t0\t2\ngo\t0\t0\t0\n", 0, 2, 5, [4, 0]),
        at("rig\t1\ngap\t1\t2\n", 0, 2, 3, [2, 0]),
        at("rig\t1\ngap\t256\t2\n", 0, 2, 3, [2, 0]),
        at("rig\t1\ngap\t0\t1\n", 0, 2, 3, [2, 0]),
        at("rig\t1\ngap\t0\t0\n", 0, 2, 3, [2, 0]),
        at("rig\t1\ngap\t0\t33\n", 0, 2, 3, [2, 0]),
        at("rig\t1\ngap\t0\t258\n", 0, 2, 3, [2, 0]),
        at("rig\t1\ngap\t0\t65538\n", 0, 2, 3, [2, 0]),
        at("rig\t2\nreply\t2\t1\t1\t2\n", 0, 2, 3, [2, 0]),
        at("rig\t2\nreply\t0\t2\t1\t2\n", 0, 2, 3, [2, 0]),
        at("rig\t2\nreply\t0\t256\t1\t2\n", 0, 2, 3, [2, 0]),
        at("rig\t2\nreply\t0\t1\t0\t2\n", 0, 2, 3, [2, 0]),
        at("rig\t2\nreply\t0\t1\t0\t0\n", 0, 2, 3, [2, 0]),
        at("rig\t2\nreply\t0\t1\t3\t2\n", 0, 2, 3, [2, 0]),
        at("rig\t2\nreply\t0\t1\t1\t32\n", 0, 2, 3, [2, 0]),
        at("rig\t2\nreply\t0\t1\t32\t32\n", 0, 2, 3, [2, 0]),
        at("rig\t2\nreply\t0\t1\t257\t258\n", 0, 2, 3, [2, 0]),
        at("rig\t2\nreply\t0\t1\t1\t257\n", 0, 2, 3, [2, 0]),
        at("rig\t2\nreply\t0\t0\t1\t2\n", 0, 2, 17, [2, 0]),
        at("rig\t1\nreply\t0\t0\t31\t31\n", 0, 2, 17, [2, 0]),
        // a equals b: after a number out of its range and after a fifth monitor, before P over 1,024
        at("rig\t2\nreply\t0\t0\t3\t2\n", 0, 2, 3, [2, 0]),
        at("rig\t2\nreply\t1\t1\t1\t32\n", 0, 2, 3, [2, 0]),
        at("rig\t2\nreply\t2\t2\t1\t2\n", 0, 2, 3, [2, 0]),
        at(&format!("rig\t2\n{}reply\t0\t0\t1\t1\n", "mon\t1\n".repeat(4)), 0, 2, 3, [6, 0]),
        at(&format!("rig\t2\n{}reply\t0\t1\t1\t1\n", "gap\t0\t2\n".repeat(4)), 0, 2, 3, [6, 0]),
        at(&format!("rig\t2\n{}gap\t0\t2\n", "reply\t0\t1\t1\t1\n".repeat(4)), 0, 2, 3, [6, 0]),
        at(&format!("rig\t2\n{}mon\t1\n", "gap\t0\t2\n".repeat(4)), 0, 2, 3, [6, 0]),
        at(&format!("rig\t2\n{}gap\t0\t2\n", "gap\t0\t5\n".repeat(4)), 0, 2, 3, [6, 0]),
        at(&(two.clone() + "reply\t0\t0\t1\t1\n"), 1, 2, 17, [4, 0]),
        at(&(two.clone() + "reply\t0\t1\t1\t1\n"), 1, 2, 3, [4, 0]),
        at(&(two.clone() + "gap\t0\t2\n"), 1, 2, 6, [4, 0]),
        at("rig\t2\ngap\t0\t32\nmon\t32\nreply\t0\t1\t1\t1\n", 0, 2, 6, [4, 0]),
        at("rig\t2\ngap\t0\t32\ngap\t1\t32\nmon\t2\n", 0, 2, 6, [4, 0]),
        at("rig\t2\nreply\t0\t1\t1\t31\nreply\t0\t1\t1\t31\nreply\t1\t1\t1\t31\n", 0, 2, 17, [4, 0]),
        at("rig\t2\ngap\t0\t31\ngap\t1\t32\nmon\t1\ngo\t1\t0\t0\n", 0, 2, 3, [5, 0]),
        // `bal` and `amp`: counted by hand, to both ends of the widest bands; beside each other and beside other kinds
        at(SWING, 0, 3, 0, [1, 1]),
        at(SWING, 1, 6, 0, [2, 1]),
        at(SWING, 2, 9, 0, [2, 1]),
        at(SWING, 3, 12, 0, [4, 1]),
        at(SWING, 3, 11, 8, [0, 0]),
        at("rig\t1\nbal\t0\t0\n", 1000, 1001, 0, [1, 1]),
        at("rig\t1\nbal\t0\t0\namp\t0\t0\n", 1000, 1001, 0, [1, 1]),
        at("rig\t1\nbal\t0\t0\namp\t0\t1\n", 0, 1, 0, [1, 1]),
        at("rig\t1\nbal\t0\t0\namp\t0\t1\n", 1, 2, 9, [0, 0]),
        at("rig\t1\nbal\t0\t15\namp\t0\t1\n", 15, 256, 0, [1, 1]),
        at("rig\t1\nbal\t0\t15\namp\t0\t1\n", 16, 272, 9, [0, 0]),
        at("rig\t1\nbal\t-15\t0\namp\t0\t-1\n", 15, 256, 0, [1, 1]),
        at("rig\t1\nbal\t-15\t0\namp\t0\t-1\n", 16, 272, 9, [0, 0]),
        at("rig\t1\nbal\t-15\t15\namp\t0\t15\n", 1, 62, 0, [1, 1]),
        at("rig\t1\nbal\t-15\t15\namp\t0\t15\n", 2, 93, 9, [0, 0]),
        at("rig\t1\nbal\t-15\t15\namp\t0\t-15\n", 1, 62, 0, [1, 1]),
        at("rig\t1\nbal\t-15\t15\namp\t0\t-15\n", 2, 93, 9, [0, 0]),
        at("rig\t1\nbal\t-15\t14\namp\t0\t15\n", 1, 60, 9, [0, 0]),
        at("rig\t1\nbal\t-14\t15\namp\t0\t-15\n", 1, 60, 9, [0, 0]),
        at("rig\t2\nbal\t-15\t15\namp\t1\t-15\namp\t0\t15\n", 3, 124, 0, [4, 1]),
        at("rig\t2\nbal\t-15\t0\namp\t0\t-1\n", 16, 272, 0, [65_535, 1]),
        at("rig\t2\nbal\t0\t15\namp\t1\t1\n", 16, 272, 0, [65_535, 1]),
        at("rig\t2\nbal\t-15\t15\n", 63, 1984, 0, [1 << 63, 1]),
        at("rig\t2\nbal\t-15\t15\n", 64, 2015, 10, [0, 0]),
        at("rig\t2\nbal\t0\t1\namp\t0\t1\namp\t1\t-1\nbal\t-1\t0\namp\t0\t1\namp\t1\t-1\n", 0, 4, 0, [1, 1]),
        at("rig\t2\nbal\t0\t1\namp\t0\t1\namp\t1\t-1\nbal\t-1\t0\namp\t0\t1\namp\t1\t-1\n", 1, 8, 9, [0, 0]),
        at("rig\t2\nbal\t0\t1\namp\t0\t1\namp\t1\t-1\nbal\t-1\t0\namp\t0\t-1\namp\t1\t1\n", 7, 32, 0, [1, 1]),
        at("rig\t1\nbal\t0\t1\namp\t0\t1\nbal\t0\t1\namp\t0\t1\n", 1, 8, 0, [1, 1]),
        at(&format!("rig\t1\n{}", "bal\t0\t0\n".repeat(4)), 1000, 1001, 0, [1, 1]),
        at("rig\t16\nbal\t-15\t0\nbal\t0\t15\nbal\t-1\t2\n", 0, 1024, 0, [1, 1]),
        at(&(two.clone() + "bal\t0\t0\n"), 0, 1024, 9, [0, 0]),
        at("rig\t1\nmon\t1\ngo\t0\t0\t0\nbal\t0\t2\namp\t0\t1\n", 0, 3, 9, [0, 0]),
        at("rig\t2\nmon\t1\ngo\t0\t0\t0\ngo\t0\t1\t0\nbal\t-2\t0\namp\t0\t-1\n", 3, 12, 0, [7, 1]),
        at("rig\t1\nmon\t1\ngo\t0\t0\t0\nstop\t0\nbal\t0\t2\namp\t0\t1\n", 2, 9, 0, [1, 1]),
        at("rig\t1\nmon\t1\ngo\t0\t0\t0\nstop\t0\nbal\t0\t2\namp\t0\t1\n", 3, 12, 9, [0, 0]),
        at("rig\t2\ngap\t1\t2\nbal\t-1\t0\namp\t1\t-1\n", 3, 16, 0, [4, 1]),
        at("rig\t2\nbal\t-1\t0\namp\t1\t-1\nreply\t0\t1\t1\t1\n", 2, 12, 0, [1, 2]),
        // a band that a reply leaves: what can't be settled doesn't belong
        at("rig\t2\nbal\t0\t0\namp\t1\t1\nreply\t0\t1\t1\t1\n", 0, 2, 0, [1, 2]),
        at("rig\t2\nbal\t0\t0\namp\t1\t1\nreply\t0\t1\t1\t1\n", 1, 4, 9, [0, 0]),
        // all their cases, in their order
        at("rig\t1\nbal\n", 0, 2, 2, [2, 0]),
        at("rig\t1\nbal\t0\n", 0, 2, 2, [2, 0]),
        at("rig\t1\nbal\t0\t\n", 0, 2, 2, [2, 0]),
        at("rig\t1\nbal\t-1\t1\t0\n", 0, 2, 2, [2, 0]),
        at("rig\t1\nbal\t-99\t99\t0\n", 0, 2, 2, [2, 0]),
        at("rig\t1\nbal\t-1\t1", 0, 2, 2, [2, 0]),
        at("rig\t1\nBAL\t-1\t1\n", 0, 2, 2, [2, 0]),
        at("rig\t1\nbal\t-0\t99\n", 0, 2, 2, [2, 0]),
        at("rig\t1\nbal\t-100000\t1\n", 0, 2, 2, [2, 0]),
        at("rig\t1\nbal\t-99999\t1\n", 0, 2, 3, [2, 0]),
        at("rig\t1\nbal\t-16\t1\n", 0, 2, 3, [2, 0]),
        at("rig\t1\nbal\t1\t1\n", 0, 2, 3, [2, 0]),
        at("rig\t1\nbal\t-256\t1\n", 0, 2, 3, [2, 0]),
        at("rig\t1\nbal\t241\t1\n", 0, 2, 3, [2, 0]),
        at("rig\t1\nbal\t65535\t1\n", 0, 2, 3, [2, 0]),
        at("rig\t1\nbal\t-65536\t1\n", 0, 2, 3, [2, 0]),
        at("rig\t1\nbal\t-1\t16\n", 0, 2, 3, [2, 0]),
        at("rig\t1\nbal\t-1\t-1\n", 0, 2, 3, [2, 0]),
        at("rig\t1\nbal\t-1\t256\n", 0, 2, 3, [2, 0]),
        at("rig\t1\nbal\t-1\t-241\n", 0, 2, 3, [2, 0]),
        at("rig\t1\nbal\t-1\t65536\n", 0, 2, 3, [2, 0]),
        at("rig\t1\nbal\t-1\t99999\n", 0, 2, 3, [2, 0]),
        at("rig\t1\nbal\t0\t1\namp\n", 0, 2, 2, [3, 0]),
        at("rig\t1\nbal\t0\t1\namp\t0\n", 0, 2, 2, [3, 0]),
        at("rig\t1\nbal\t0\t1\namp\t0\t1\t1\n", 0, 2, 2, [3, 0]),
        at("rig\t1\nbal\t0\t1\namp\t0\t\n", 0, 2, 2, [3, 0]),
        at("rig\t1\nbal\t0\t1\namp\t0\t1", 0, 2, 2, [3, 0]),
        at("rig\t1\nbal\t0\t1\namp\t-1\t1\n", 0, 2, 2, [3, 0]),
        at("rig\t1\nbal\t0\t1\namp\t9\t-0\n", 0, 2, 2, [3, 0]),
        at("rig\t1\nbal\t0\t1\namp\t0\t-100000\n", 0, 2, 2, [3, 0]),
        at("rig\t1\nbal\t0\t1\namp\t0\t-99999\n", 0, 2, 3, [3, 0]),
        at("rig\t1\nbal\t0\t1\namp\t0\t-16\n", 0, 2, 3, [3, 0]),
        at("rig\t1\nbal\t0\t1\namp\t0\t16\n", 0, 2, 3, [3, 0]),
        at("rig\t1\nbal\t0\t1\namp\t0\t256\n", 0, 2, 3, [3, 0]),
        at("rig\t1\nbal\t0\t1\namp\t0\t-255\n", 0, 2, 3, [3, 0]),
        at("rig\t1\nbal\t0\t1\namp\t0\t-65536\n", 0, 2, 3, [3, 0]),
        at("rig\t1\nbal\t0\t1\namp\t1\t1\n", 0, 2, 3, [3, 0]),
        at("rig\t1\nbal\t0\t1\namp\t256\t1\n", 0, 2, 3, [3, 0]),
        at("rig\t16\nbal\t0\t1\namp\t16\t1\n", 0, 2, 3, [3, 0]),
        at("amp\t0\n", 0, 2, 2, [1, 0]),
        at("amp\t0\t1\n", 0, 2, 5, [1, 0]),
        at("bal\t99\t-99\n", 0, 2, 5, [1, 0]),
        at("rig\t1\namp\t0\t1\n", 0, 2, 5, [2, 0]),
        at("rig\t1\namp\t99\t-99\n", 0, 2, 5, [2, 0]),
        at("rig\t1\namp\t99\t-0\n", 0, 2, 2, [2, 0]),
        at("rig\t2\nord\t1\t0\namp\t0\t1\n", 0, 2, 5, [3, 0]),
        at("rig\t1\nmon\t1\namp\t0\t1\n", 0, 2, 5, [3, 0]),
        at("rig\t1\nmon\t1\namp\t99\t99\n", 0, 2, 5, [3, 0]),
        at("rig\t1\ngap\t0\t2\namp\t0\t1\n", 0, 2, 5, [3, 0]),
        at("rig\t2\nreply\t0\t1\t1\t1\namp\t0\t1\n", 0, 2, 5, [3, 0]),
        at("rig\t1\nbal\t0\t1\nmon\t1\namp\t0\t1\n", 0, 2, 5, [4, 0]),
        at("rig\t1\nbal\t0\t1\namp\t0\t1\ngap\t0\t2\namp\t0\t1\n", 0, 2, 5, [5, 0]),
        at("rig\t1\nbal\t0\t1\ngo\t0\t0\t0\n", 0, 2, 5, [3, 0]),
        at("rig\t1\nbal\t0\t1\ngo\t99\t99\t99\n", 0, 2, 5, [3, 0]),
        at("rig\t1\nmon\t1\nbal\t0\t1\ngo\t0\t0\t0\n", 0, 2, 5, [4, 0]),
        at("rig\t1\nbal\t0\t1\nstop\t0\n", 0, 2, 5, [3, 0]),
        at("rig\t1\nbal\t0\t1\nstop\t99\n", 0, 2, 5, [3, 0]),
        at("rig\t1\nbal\t0\t1\nrig\t1\n", 0, 2, 5, [3, 0]),
        at("rig\t1\nbal\t0\t1\nord\t0\n", 0, 2, 5, [3, 0]),
        at("rig\t1\nbal\t0\t1\namp\t0\t1\namp\t0\t1\n", 0, 2, 4, [4, 0]),
        at("rig\t1\nbal\t0\t1\namp\t0\t1\namp\t0\t-1\n", 0, 2, 4, [4, 0]),
        at("rig\t1\nbal\t0\t1\namp\t0\t1\namp\t0\t0\n", 0, 2, 4, [4, 0]),
        at("rig\t1\nbal\t0\t1\namp\t0\t0\namp\t0\t0\n", 0, 2, 4, [4, 0]),
        at("rig\t1\nbal\t0\t1\namp\t0\t0\namp\t0\t1\n", 0, 2, 4, [4, 0]),
        at("rig\t2\nbal\t0\t1\namp\t0\t15\namp\t1\t15\namp\t0\t15\n", 0, 2, 4, [5, 0]),
        at("rig\t1\nbal\t0\t1\namp\t0\t1\namp\t0\t16\n", 0, 2, 3, [4, 0]),
        at("rig\t1\nbal\t0\t1\namp\t0\t16\namp\t0\t16\n", 0, 2, 3, [3, 0]),
        at(&format!("rig\t1\n{}bal\t0\t0\n", "bal\t0\t0\n".repeat(4)), 0, 2, 3, [6, 0]),
        at(&format!("rig\t1\n{}mon\t1\n", "bal\t0\t0\n".repeat(4)), 0, 2, 3, [6, 0]),
        at(&format!("rig\t1\n{}bal\t-15\t15\n", "mon\t5\n".repeat(4)), 0, 2, 3, [6, 0]),
        at(&format!("rig\t1\n{}bal\t-0\t15\n", "mon\t5\n".repeat(4)), 0, 2, 2, [6, 0]),
        at(&(two.clone() + "bal\t0\t1\n"), 1, 2, 6, [4, 0]),
        at(&(two.clone() + "bal\t-1\t0\namp\t9\t9\n"), 1, 2, 6, [4, 0]),
        at("rig\t1\nbal\t-15\t15\nbal\t-15\t15\nbal\t0\t1\n", 0, 2, 6, [4, 0]),
        at("rig\t1\nbal\t-15\t15\nmon\t32\nbal\t0\t0\ngap\t0\t2\n", 0, 2, 6, [5, 0]),
        at("rig\t1\nbal\t-15\t15\nbal\t-15\t15\nbal\t0\t16\n", 0, 2, 3, [4, 0]),
        // `day` and `open`: counted by hand, once and twice round the day; lines that add up, overlap and repeat; beside each other and other kinds
        at(DAY, 0, 3, 0, [1, 1]),
        at(DAY, 1, 6, 0, [2, 1]),
        at(DAY, 2, 9, 0, [2, 1]),
        at(DAY, 3, 12, 0, [4, 1]),
        at(DAY, 3, 11, 8, [0, 0]),
        at(DAY, 4, 15, 0, [8, 1]),
        at(DAY, 6, 21, 0, [16, 1]),
        at("rig\t1\nday\t2\n", 1000, 2002, 0, [1, 1]),
        at("rig\t1\nday\t2\nopen\t0\t0\t2\n", 1000, 2002, 0, [1, 1]),
        at("rig\t1\nday\t2\nopen\t0\t1\t2\nopen\t0\t0\t1\n", 1000, 2002, 0, [1, 1]),
        at("rig\t1\nday\t2\nopen\t0\t0\t1\n", 1, 4, 0, [1, 1]),
        at("rig\t1\nday\t2\nopen\t0\t0\t1\n", 2, 6, 9, [0, 0]),
        at("rig\t1\nday\t2\nopen\t0\t0\t1\nopen\t0\t0\t1\n", 1, 4, 0, [1, 1]),
        at("rig\t1\nday\t2\nopen\t0\t1\t2\n", 0, 2, 0, [1, 1]),
        at("rig\t1\nday\t2\nopen\t0\t1\t2\n", 1, 4, 9, [0, 0]),
        at("rig\t2\nday\t4\nopen\t0\t0\t3\nopen\t0\t1\t2\n", 4, 20, 0, [8, 1]),
        at("rig\t2\nday\t4\nopen\t0\t0\t2\nopen\t0\t1\t3\n", 8, 36, 0, [64, 1]),
        at("rig\t3\nday\t2\nopen\t0\t0\t1\nopen\t2\t1\t2\n", 3, 8, 0, [8, 1]),
        at("rig\t1\nday\t32\nopen\t0\t0\t31\n", 31, 1024, 0, [1, 1]),
        at("rig\t1\nday\t32\nopen\t0\t0\t31\n", 32, 1056, 9, [0, 0]),
        at("rig\t2\nday\t32\nopen\t1\t31\t32\n", 31, 1024, 0, [1, 1]),
        at("rig\t2\nday\t32\nopen\t1\t31\t32\n", 63, 2048, 0, [2, 1]),
        at("rig\t2\nday\t32\nopen\t1\t31\t32\n", 64, 2080, 0, [4, 1]),
        at("rig\t2\nday\t2\n", 63, 128, 0, [1 << 63, 1]),
        at("rig\t2\nday\t2\n", 64, 130, 10, [0, 0]),
        at("rig\t2\nday\t2\nopen\t1\t0\t1\nday\t3\nopen\t1\t0\t1\n", 6, 42, 0, [2, 1]),
        at("rig\t2\nday\t2\nopen\t1\t0\t1\nday\t3\nopen\t1\t0\t1\n", 7, 48, 0, [4, 1]),
        at("rig\t2\nday\t2\nday\t3\nopen\t1\t2\t3\n", 3, 24, 0, [2, 1]),
        at("rig\t1\nday\t2\nopen\t0\t0\t1\nday\t2\nopen\t0\t1\t2\n", 0, 4, 0, [1, 1]),
        at("rig\t1\nday\t2\nopen\t0\t0\t1\nday\t2\nopen\t0\t1\t2\n", 1, 8, 9, [0, 0]),
        at(&format!("rig\t1\n{}", "day\t2\n".repeat(4)), 63, 1024, 0, [1, 1]),
        at("rig\t16\nday\t32\nday\t32\n", 0, 1024, 0, [1, 1]),
        at("rig\t1\nmon\t1\ngo\t0\t0\t0\nday\t2\nopen\t0\t0\t1\n", 0, 2, 9, [0, 0]),
        at("rig\t1\nmon\t1\ngo\t0\t0\t0\nstop\t0\nday\t2\nopen\t0\t0\t1\n", 1, 4, 0, [1, 1]),
        at("rig\t1\nmon\t1\ngo\t0\t0\t0\nstop\t0\nday\t2\nopen\t0\t0\t1\n", 2, 6, 9, [0, 0]),
        at("rig\t2\ngap\t1\t2\nday\t2\nopen\t1\t0\t1\n", 5, 24, 0, [8, 1]),
        at("rig\t2\nday\t2\nopen\t1\t0\t1\nbal\t0\t1\namp\t1\t1\n", 5, 24, 0, [4, 1]),
        // an hour that a reply misses: what can't be settled doesn't belong
        at("rig\t2\nreply\t0\t1\t1\t1\nday\t2\nopen\t1\t0\t1\n", 0, 4, 0, [1, 2]),
        at("rig\t2\nreply\t0\t1\t1\t1\nday\t2\nopen\t1\t0\t1\n", 3, 16, 0, [1, 2]),
        // all their cases, in their order
        at("rig\t1\nday\n", 0, 2, 2, [2, 0]),
        at("rig\t1\nday\t\n", 0, 2, 2, [2, 0]),
        at("rig\t1\nday\t2\t0\n", 0, 2, 2, [2, 0]),
        at("rig\t1\nday\t99\t0\n", 0, 2, 2, [2, 0]),
        at("rig\t1\nday\t02\n", 0, 2, 2, [2, 0]),
        at("rig\t1\nday\t-2\n", 0, 2, 2, [2, 0]),
        at("rig\t1\nday\t100000\n", 0, 2, 2, [2, 0]),
        at("rig\t1\nday\t2", 0, 2, 2, [2, 0]),
        at("rig\t1\nDAY\t2\n", 0, 2, 2, [2, 0]),
        at("rig\t1\ndays\t2\n", 0, 2, 2, [2, 0]),
        at("rig\t1\nday\t1\n", 0, 2, 3, [2, 0]),
        at("rig\t1\nday\t0\n", 0, 2, 3, [2, 0]),
        at("rig\t1\nday\t33\n", 0, 2, 3, [2, 0]),
        at("rig\t1\nday\t258\n", 0, 2, 3, [2, 0]),
        at("rig\t1\nday\t65538\n", 0, 2, 3, [2, 0]),
        at("rig\t1\nday\t99999\n", 0, 2, 3, [2, 0]),
        at("rig\t1\nday\t2\nopen\n", 0, 2, 2, [3, 0]),
        at("rig\t1\nday\t2\nopen\t0\n", 0, 2, 2, [3, 0]),
        at("rig\t1\nday\t2\nopen\t0\t0\n", 0, 2, 2, [3, 0]),
        at("rig\t1\nday\t2\nopen\t0\t0\t1\t1\n", 0, 2, 2, [3, 0]),
        at("rig\t1\nday\t2\nopen\t9\t9\t9\t9\n", 0, 2, 2, [3, 0]),
        at("rig\t1\nday\t2\nopen\t0\t0\t\n", 0, 2, 2, [3, 0]),
        at("rig\t1\nday\t2\nopen\t0\t0\t1", 0, 2, 2, [3, 0]),
        at("rig\t1\nday\t2\nopen\t0\t1\t0", 0, 2, 2, [3, 0]),
        at("rig\t1\nday\t2\nopen\t-1\t0\t1\n", 0, 2, 2, [3, 0]),
        at("rig\t1\nday\t2\nopen\t0\t-1\t1\n", 0, 2, 2, [3, 0]),
        at("rig\t1\nday\t2\nopen\t0\t0\t-1\n", 0, 2, 2, [3, 0]),
        at("rig\t1\nday\t2\nopen\t9\t9\t01\n", 0, 2, 2, [3, 0]),
        at("rig\t1\nday\t2\nopen\t0\t100000\t2\n", 0, 2, 2, [3, 0]),
        at("rig\t1\nday\t2\nopens\t0\t0\t1\n", 0, 2, 2, [3, 0]),
        at("rig\t1\nday\t2\nopen\t1\t0\t1\n", 0, 2, 3, [3, 0]),
        at("rig\t1\nday\t2\nopen\t256\t0\t1\n", 0, 2, 3, [3, 0]),
        at("rig\t1\nday\t2\nopen\t99999\t0\t1\n", 0, 2, 3, [3, 0]),
        at("rig\t16\nday\t2\nopen\t16\t0\t1\n", 0, 2, 3, [3, 0]),
        at("rig\t1\nday\t2\nopen\t0\t0\t3\n", 0, 2, 3, [3, 0]),
        at("rig\t1\nday\t32\nopen\t0\t0\t33\n", 0, 2, 3, [3, 0]),
        at("rig\t1\nday\t2\nopen\t0\t0\t258\n", 0, 2, 3, [3, 0]),
        at("rig\t1\nday\t2\nopen\t0\t0\t65537\n", 0, 2, 3, [3, 0]),
        at("rig\t1\nday\t2\nopen\t0\t0\t99999\n", 0, 2, 3, [3, 0]),
        at("rig\t1\nday\t3\nday\t2\nopen\t0\t2\t3\n", 0, 2, 3, [4, 0]),
        // a not below b: a has no other range, nor b a lower end
        at("rig\t1\nday\t2\nopen\t0\t0\t0\n", 0, 2, 18, [3, 0]),
        at("rig\t1\nday\t2\nopen\t0\t1\t1\n", 0, 2, 18, [3, 0]),
        at("rig\t1\nday\t2\nopen\t0\t2\t2\n", 0, 2, 18, [3, 0]),
        at("rig\t1\nday\t2\nopen\t0\t2\t1\n", 0, 2, 18, [3, 0]),
        at("rig\t1\nday\t2\nopen\t0\t1\t0\n", 0, 2, 18, [3, 0]),
        at("rig\t1\nday\t3\nopen\t0\t99999\t3\n", 0, 2, 18, [3, 0]),
        at("rig\t1\nday\t2\nopen\t0\t256\t1\n", 0, 2, 18, [3, 0]),
        at("rig\t1\nday\t2\nopen\t0\t65536\t1\n", 0, 2, 18, [3, 0]),
        at("rig\t1\nday\t2\nopen\t0\t0\t1\nopen\t0\t1\t1\n", 0, 2, 18, [4, 0]),
        at("rig\t1\nday\t2\nopen\t0\t1\t1\nopen\t0\t1\t1\t1\n", 0, 2, 18, [3, 0]),
        // after a line that isn't of the latest monitor and a number out of its range
        at("rig\t1\nday\t2\nopen\t0\t9\t3\n", 0, 2, 3, [3, 0]),
        at("rig\t1\nday\t2\nopen\t0\t3\t3\n", 0, 2, 3, [3, 0]),
        at("rig\t1\nday\t2\nopen\t1\t1\t1\n", 0, 2, 3, [3, 0]),
        at("rig\t1\nmon\t1\nopen\t0\t1\t1\n", 0, 2, 5, [3, 0]),
        at("rig\t1\nopen\t9\t9\t0\n", 0, 2, 5, [2, 0]),
        at("open\t0\n", 0, 2, 2, [1, 0]),
        at("open\t0\t0\t1\n", 0, 2, 5, [1, 0]),
        at("open\t9\t9\t9\n", 0, 2, 5, [1, 0]),
        at("day\t2\n", 0, 2, 5, [1, 0]),
        at("day\t99\n", 0, 2, 5, [1, 0]),
        at("rig\t1\nopen\t0\t0\t1\n", 0, 2, 5, [2, 0]),
        at("rig\t2\nord\t1\t0\nopen\t0\t0\t1\n", 0, 2, 5, [3, 0]),
        at("rig\t1\nmon\t1\nopen\t0\t0\t1\n", 0, 2, 5, [3, 0]),
        at("rig\t1\ngap\t0\t2\nopen\t0\t0\t1\n", 0, 2, 5, [3, 0]),
        at("rig\t2\nreply\t0\t1\t1\t1\nopen\t0\t0\t1\n", 0, 2, 5, [3, 0]),
        at("rig\t1\nbal\t0\t1\nopen\t0\t0\t1\n", 0, 2, 5, [3, 0]),
        at("rig\t1\nday\t2\nmon\t2\nopen\t0\t0\t1\n", 0, 2, 5, [4, 0]),
        at("rig\t1\nday\t2\nopen\t0\t0\t1\ngap\t0\t2\nopen\t0\t0\t1\n", 0, 2, 5, [5, 0]),
        at("rig\t1\nday\t2\ngo\t0\t0\t0\n", 0, 2, 5, [3, 0]),
        at("rig\t1\nday\t2\ngo\t99\t99\t99\n", 0, 2, 5, [3, 0]),
        at("rig\t1\nmon\t2\nday\t2\ngo\t0\t0\t0\n", 0, 2, 5, [4, 0]),
        at("rig\t1\nday\t2\nstop\t0\n", 0, 2, 5, [3, 0]),
        at("rig\t1\nday\t2\nstop\t99\n", 0, 2, 5, [3, 0]),
        at("rig\t1\nday\t2\namp\t0\t1\n", 0, 2, 5, [3, 0]),
        at("rig\t1\nday\t2\namp\t99\t-99\n", 0, 2, 5, [3, 0]),
        at("rig\t1\nday\t2\nrig\t1\n", 0, 2, 5, [3, 0]),
        at("rig\t1\nday\t2\nord\t0\n", 0, 2, 5, [3, 0]),
        at(&format!("rig\t1\n{}", "day\t2\n".repeat(5)), 0, 2, 3, [6, 0]),
        at(&format!("rig\t1\n{}mon\t1\n", "day\t2\n".repeat(4)), 0, 2, 3, [6, 0]),
        at(&format!("rig\t1\n{}day\t32\n", "mon\t5\n".repeat(4)), 0, 2, 3, [6, 0]),
        at(&format!("rig\t1\n{}day\t032\n", "mon\t5\n".repeat(4)), 0, 2, 2, [6, 0]),
        at(&(two.clone() + "day\t2\n"), 1, 2, 6, [4, 0]),
        at(&(two.clone() + "day\t2\nopen\t9\t9\t9\n"), 1, 2, 6, [4, 0]),
        at(&(two.clone() + "day\t1\n"), 1, 2, 3, [4, 0]),
        at("rig\t1\nday\t32\nday\t32\nday\t2\n", 0, 2, 6, [4, 0]),
        at("rig\t1\nday\t32\nbal\t-15\t15\nmon\t1\ngap\t0\t2\n", 0, 2, 6, [5, 0]),
    ];
    let path: String = (0..31).map(|s| format!("go\t{s}\t0\t{}\n", s + 1)).collect();
    counts.push(at(&format!("rig\t1\nmon\t32\n{path}"), 0, 32, 9, [0, 0]));
    for (t, h, cells, number, words) in counts {
        let want = count(tally, rng, &t, h, cells);
        assert_eq!((want.number, want.words), (number, words), "the independent count of a worked example");
    }
    let (a, b, f) = (A.as_bytes(), B.as_bytes(), F.as_bytes());
    let want = scenarios(tally, rng, a, 3, &[4, 2, 2], 8, 9);
    assert_eq!((want.number, want.out), (0, vec![1, 0, 1, 0, 1, 0, 0, 1, 0]));
    let want = scenarios(tally, rng, A_ORDERED.as_bytes(), 3, &[0, 1, 2, 3, 4], 8, 15);
    assert_eq!((want.number, want.out), (0, vec![1, 0, 1, 1, 0, 0, 0, 1, 0, 0, 0, 1, 0, 0, 0]));
    let want = scenarios(tally, rng, B_STOPS.as_bytes(), 2, &[1, 0], 12, 4);
    assert_eq!((want.number, want.out), (0, vec![0, 1, 0, 0]));
    for (list, out, number, place) in [(vec![0, 1], 5, 12, 0), (vec![5], 3, 11, 0), (vec![4, 9, 5], 9, 11, 1), (vec![], 0, 0, 0)] {
        let want = scenarios(tally, rng, a, 3, &list, 8, out);
        assert_eq!((want.number, want.words[0]), (number, place), "the independent scenarios of a worked example");
    }
    let want = scenarios(tally, rng, REPLY.as_bytes(), 2, &[0, 1, 7], 9, 6);
    assert_eq!((want.number, want.out), (0, vec![0, 1, 0, 2, 2, 2]));
    let want = scenarios(tally, rng, SWING.as_bytes(), 3, &[3, 1, 0], 12, 9);
    assert_eq!((want.number, want.out), (0, vec![1, 0, 1, 0, 1, 1, 0, 1, 0]));
    let want = scenarios(tally, rng, DAY.as_bytes(), 3, &[3, 1, 0], 12, 9);
    assert_eq!((want.number, want.out), (0, vec![1, 0, 1, 0, 0, 1, 0, 0, 0]));
    let down = b"rig\t2\nbal\t-15\t0\namp\t0\t-1\n";
    let sequences: [(&[u8], &[u8], u64, u64); 37] = [
        (a, &[1, 0, 1], 0, 4),
        (A_ORDERED.as_bytes(), &[0, 1, 0], 0, 2),
        (b, &[1], 14, 0),
        (a, &[0, 2], 13, 1),
        (a, &[0, 1, 1], 14, 2),
        (f, &[2; 64], 13, 0),
        (f, &[0; 64], 10, 0),
        (B_STOPS.as_bytes(), &[0, 1], 0, 1),
        (B_STOPS.as_bytes(), &[1, 0], 14, 1),
        (LAST.as_bytes(), &[0], 0, 0),
        (LAST.as_bytes(), &[0, 0], 9, 0),
        // the first event that isn't admitted, though no scenario begins with those before it
        (EITHER.as_bytes(), &[0], 0, 0),
        (EITHER.as_bytes(), &[0, 1], 14, 1),
        (EITHER.as_bytes(), &[0, 0, 0], 14, 1),
        (EITHER.as_bytes(), &[1, 1, 0], 14, 2),
        (EITHER.as_bytes(), &[1, 1, 1], 0, 0),
        (A_GAP.as_bytes(), &[1, 0, 1], 0, 4),
        (A_GAP.as_bytes(), &[0, 1, 1], 14, 2),
        (REPLY.as_bytes(), &[0, 2, 1], 0, 3),
        (REPLY.as_bytes(), &[0, 2, 2], 14, 2),
        (REPLY.as_bytes(), &[0, 2, 0], 14, 2),
        (REPLY.as_bytes(), &[0, 0], 14, 1),
        (CLASH.as_bytes(), &[0, 1], 0, 0),
        // admitted, but it leads where nothing can follow
        (CLASH.as_bytes(), &[1, 0], 14, 1),
        (CLASH.as_bytes(), &[0, 1, 0], 9, 0),
        (SWING.as_bytes(), &[1, 0, 1], 0, 3),
        (SWING.as_bytes(), &[0, 0], 14, 1),
        (SWING.as_bytes(), &[1, 1, 0], 14, 1),
        (SWING.as_bytes(), &[0, 1, 0, 0], 14, 3),
        (down, &[0; 15], 0, 0),
        (down, &[0; 16], 14, 15),
        (down, &[1; 16], 0, 65_534),
        (DAY.as_bytes(), &[1, 0, 1, 1], 0, 7),
        (DAY.as_bytes(), &[0, 1], 14, 1),
        (DAY.as_bytes(), &[1, 0, 1, 1, 1], 14, 4),
        (DAY.as_bytes(), &[1, 1, 2], 13, 2),
        (DAY.as_bytes(), &[1, 1, 1, 1, 1], 14, 1),
    ];
    for (t, w, number, word) in sequences {
        let want = index(tally, rng, t, w, 300);
        assert_eq!((want.number, want.words[0]), (number, word), "the independent index of a worked example");
    }
    for good in [LAST, A_GAP, CLASH, SWING, DAY] {
        for (at, byte) in (0..good.len()).flat_map(|at| (0..=255).map(move |byte| (at, byte))) {
            let mut t = good.as_bytes().to_vec();
            t[at] = byte;
            count(tally, rng, &t, 1, 12);
        }
    }
    for (t, place) in wrong_signs() {
        let want = count(tally, rng, &t, 1, 200);
        assert_eq!((want.number, want.words[0]), (2, place), "a sign where none may stand: {}", shown(&t));
    }
    assert_eq!(shuffle(tally, rng, 5, &[4, 4, 4], 6, 3), [4, 0, 1]);
    assert_eq!(shuffle(tally, rng, 0, &[], 0, 0), []);
    shuffle(tally, rng, 2, &[0, 0], 4, 2);
    assert_eq!(model::shuffle(2, &[0, 0], 4, &[0, 0]).0, (15, 1));
}

/// Worked examples of the small scenarios call: its own need, also where that is more than all rows; 7 before 8, 8 before 12, 12 before the rest.
fn worked_small(tally: &mut Tally, rng: &mut Random) {
    use texts::{A, F, LAST, ONE};
    let two = "rig\t1\nmon\t32\nmon\t32\n".to_string();
    for (t, h, list, cells, out, number, place) in [
        (A, 3, &[4, 2, 2][..], 32, 9, 0, 0),
        (A, 3, &[4, 2, 2], 31, 9, 8, 0),
        (A, 3, &[4, 2, 2], 8, 9, 8, 0),
        (A, 0, &[0, 0], 32, 0, 0, 0),
        (A, 0, &[0, 1], 32, 0, 11, 1),
        (A, 3, &[], 32, 0, 0, 0),
        (A, 3, &[], 31, 0, 8, 0),
        (A, 3, &[0, 1], 32, 5, 12, 0),
        (A, 3, &[0, 9], 31, 5, 8, 0),
        (A, 3, &[4, 9, 5], 32, 9, 11, 1),
        (A, 15, &[1], 32, 15, 0, 0),
        (A, 16, &[1], 34, 16, 0, 0),
        (A, 16, &[1], 33, 16, 8, 0),
        (A, 31, &[1], 34, 31, 0, 0),
        (A, 32, &[1], 35, 32, 8, 0),
        (F, 63, &[u64::MAX >> 1], 19, 63, 0, 0),
        (F, 63, &[1 << 63], 19, 63, 11, 0),
        (F, 63, &[0], 18, 63, 8, 0),
        (F, 64, &[u64::MAX], 20, 64, 10, 0),
        (F, 64, &[u64::MAX], 20, 63, 12, 0),
        (ONE, 1000, &[0], 78, 1000, 0, 0),
        (ONE, 1000, &[0], 77, 1000, 8, 0),
        (ONE, 1001, &[0], 77, 1000, 7, 0),
        (LAST, 2, &[0], 32, 2, 9, 0),
        (&two, 1000, &[0], 79_871, 1000, 8, 0),
        (&two, 1000, &[0], 79_872, 999, 12, 0),
        (&two, 1000, &[0], 79_872, 1000, 9, 0),
        (&(two.clone() + "mon\t2\n"), 1001, &[0], 0, 0, 6, 4),
    ] {
        let want = scenarios_small(tally, rng, t.as_bytes(), h, list, cells, out);
        assert_eq!((want.number, want.words[0]), (number, place), "the independent small scenarios of a worked example");
    }
    let want = scenarios_small(tally, rng, A.as_bytes(), 3, &[4, 2, 2], 32, 9);
    assert_eq!(want.out, [1, 0, 1, 0, 1, 0, 0, 1, 0]);
}

/// Worked examples of the forward count: its own need, also where that is more than all rows; 7 before 8, 8 before 9 and 10. Numbers that were full and are
/// gone at a longer horizon, where runs stop, wholly or but for a few; and numbers that are full only once all states are added.
fn worked_forward(tally: &mut Tally, rng: &mut Random) {
    use texts::{A, A_FROM_1, B, B_STOPS, EITHER, F, LAST, ONE};
    let two = "rig\t1\nmon\t32\nmon\t32\n".to_string();
    let [two_ways, eight_ways] = [2, 8].map(|ways| chain(5, 14, ways, End::Stops));
    let (full, dead, aside) = (chain(13, 5, 2, End::Stops), chain(5, 14, 2, End::Dead), chain(5, 14, 2, End::Aside));
    // the state is the latest event: half of all sequences end in each
    let halves = b"rig\t2\nmon\t2\ngo\t0\t0\t0\ngo\t0\t1\t1\ngo\t1\t0\t0\ngo\t1\t1\t1\n";
    for (t, h, cells, number, words) in [
        (A.as_bytes(), 3, 4, 0, [5, 1]),
        (A.as_bytes(), 3, 3, 8, [0, 0]),
        (A.as_bytes(), 3, 8, 0, [5, 1]),
        (A.as_bytes(), 0, 4, 0, [1, 1]),
        (A.as_bytes(), 0, 3, 8, [0, 0]),
        (A.as_bytes(), 0, 2, 8, [0, 0]),
        (A.as_bytes(), 1, 4, 0, [2, 1]),
        (A.as_bytes(), 91, 4, 0, [12_200_160_415_121_876_738, 1]),
        (A.as_bytes(), 92, 4, 10, [0, 0]),
        (A.as_bytes(), 1000, 4, 10, [0, 0]),
        (A.as_bytes(), 1000, 3, 8, [0, 0]),
        (A.as_bytes(), 1001, 4, 7, [0, 0]),
        (A.as_bytes(), 1001, 0, 7, [0, 0]),
        (A.as_bytes(), u64::MAX, 4, 7, [0, 0]),
        (A_FROM_1.as_bytes(), 3, 4, 0, [3, 1]),
        (B.as_bytes(), 1, 8, 0, [1, 3]),
        (B.as_bytes(), 1, 7, 8, [0, 0]),
        (B.as_bytes(), 1000, 8, 0, [1, 3]),
        (B_STOPS.as_bytes(), 2, 8, 0, [2, 1]),
        (EITHER.as_bytes(), 1, 8, 0, [2, 2]),
        (EITHER.as_bytes(), 2, 8, 0, [1, 2]),
        (EITHER.as_bytes(), 1000, 8, 0, [1, 2]),
        (F.as_bytes(), 63, 2, 0, [1 << 63, 1]),
        (F.as_bytes(), 64, 2, 10, [0, 0]),
        (F.as_bytes(), 64, 1, 8, [0, 0]),
        (F.as_bytes(), 1000, 2, 10, [0, 0]),
        (ONE.as_bytes(), 1000, 2, 0, [1, 1]),
        (ONE.as_bytes(), 1000, 1, 8, [0, 0]),
        (ONE.as_bytes(), 1001, 2, 7, [0, 0]),
        (LAST.as_bytes(), 0, 4, 0, [1, 1]),
        (LAST.as_bytes(), 1, 4, 0, [1, 1]),
        (LAST.as_bytes(), 2, 4, 9, [0, 0]),
        (LAST.as_bytes(), 2, 3, 8, [0, 0]),
        (LAST.as_bytes(), 1000, 4, 9, [0, 0]),
        (b"rig\t1\nmon\t2\ngo\t1\t0\t1\n", 0, 4, 9, [0, 0]),
        (two.as_bytes(), 0, 2048, 9, [0, 0]),
        (two.as_bytes(), 1000, 2048, 9, [0, 0]),
        (two.as_bytes(), 1000, 2047, 8, [0, 0]),
        (&(two.clone() + "mon\t2\n").into_bytes(), 1001, 0, 6, [4, 0]),
        (&[10; 65_536], 1001, 0, 1, [0, 0]),
        (&two_ways, 63, 140, 0, [1 << 63, 1]),
        (&two_ways, 64, 140, 10, [0, 0]),
        (&two_ways, 69, 140, 10, [0, 0]),
        (&two_ways, 70, 140, 9, [0, 0]),
        (&two_ways, 1000, 140, 9, [0, 0]),
        (&eight_ways, 21, 140, 0, [1 << 63, 1]),
        (&eight_ways, 69, 140, 10, [0, 0]),
        (&eight_ways, 70, 140, 9, [0, 0]),
        (&full, 63, 130, 0, [1 << 63, 1]),
        (&full, 64, 130, 10, [0, 0]),
        (&full, 65, 130, 9, [0, 0]),
        (&dead, 0, 140, 9, [0, 0]),
        (&dead, 69, 140, 9, [0, 0]),
        (&aside, 13, 168, 0, [(1 << 14) - 1, 1]),
        (&aside, 63, 168, 0, [(1 << 63) + (1 << 14) - 1, 1]),
        (&aside, 64, 168, 10, [0, 0]),
        (&aside, 69, 168, 10, [0, 0]),
        (&aside, 70, 168, 0, [(1 << 14) - 1, 1]),
        (&aside, 1000, 168, 0, [(1 << 14) - 1, 1]),
        (halves, 63, 4, 0, [1 << 63, 1]),
        (halves, 64, 4, 10, [0, 0]),
        (halves, 65, 4, 10, [0, 0]),
    ] {
        let want = count_forward(tally, rng, t, h, cells);
        assert_eq!((want.number, want.words), (number, words), "the independent forward count of a worked example: h {h}, {}", shown(t));
    }
}

/// Worked examples of Draws: no draws are served whatever the rest; 12 before 15, 15 before 19. And every limit with a seed of which 33 raw numbers in a row
/// are below 2^63 - 1, the first ones, so that draw 0 of 2^63 + 1 numbers throws them away.
fn worked_draws(tally: &mut Tally, rng: &mut Random) {
    let (half, long, thrown) = ((1 << 63) + 1, 8023464001174401705, 33);
    for (n, z, seed, limit, out, number, place) in [
        (0, 0, 0, 0, 0, 0, 0),
        (0, 0, 7, 255, 3, 0, 0),
        (5, 0, 7, 0, 3, 0, 0),
        (u64::MAX, 0, u64::MAX, 0, 0, 0, 0),
        (5, 5, 7, 1, 5, 0, 0),
        (5, 5, 7, 1, 4, 12, 0),
        (5, 6, 7, 1, 6, 15, 5),
        (5, 6, 7, 1, 5, 12, 0),
        (5, 6, 7, 0, 6, 15, 5),
        (5, 6, 7, 0, 5, 12, 0),
        (5, 5, 7, 0, 5, 19, 0),
        (5, 5, 7, 0, 4, 12, 0),
        (0, 1, 7, 0, 1, 15, 0),
        (0, 1, 7, 255, 0, 12, 0),
        (1, 1, 7, 0, 1, 19, 0),
        (1, 1, 7, 1, 1, 0, 0),
        (300, 301, 7, 1, 301, 15, 300),
        (u64::MAX, u64::MAX, 7, 255, 9, 12, 0),
        (0, u64::MAX, 7, 0, 9, 12, 0),
        (u64::MAX, 1 << 32, 7, 1, 0, 12, 0),
        (u64::MAX, (1 << 32) + 1, 7, 1, 1, 12, 0),
        (u64::MAX, 1 << 63, 7, 1, 9, 12, 0),
        (half, 1, long, thrown, 1, 19, 0),
        (half, 1, long, thrown + 1, 1, 0, 0),
    ] {
        let (told, _) = draws(tally, rng, n, z, seed, limit, out);
        assert_eq!(told, (number, place), "the independent draws of a worked example: n {n}, {z} draws, limit {limit}, {out} output");
    }
    for limit in 0..=255 {
        let (told, _) = draws(tally, rng, half, 2, long, limit, 2);
        assert_eq!(told, if limit > thrown { (0, 0) } else { (19, 0) }, "the independent draws with a limit of {limit}");
    }
}

/// The published raw numbers, as the library's draws tell them: of 2^64 - 1 numbers draw i is i more than a raw number from i + 1 to 2^64 - 2 - i. And draws of
/// 5 numbers by them: they leave 2, 1, 0, 1 and 0 when divided by 5, 4, 3, 2 and 1.
fn published(tally: &mut Tally, rng: &mut Random) {
    for (seed, raw) in model::PUBLISHED {
        for many in 1..=raw.len() {
            let (_, out) = draws(tally, rng, u64::MAX, many as u64, seed, 1, many);
            let told: Vec<u64> = out.iter().zip(0..).map(|(d, i)| d.wrapping_sub(i)).collect();
            let wrong = (told != raw[..many]).then(|| format!("{told:?}"));
            tally.note("published", 0, wrong, || format!("{many} raw numbers of the seed {seed}"));
        }
    }
    let (_, out) = draws(tally, rng, 5, 5, model::PUBLISHED[0].0, 1, 5);
    tally.note("published", 0, (out != [2, 2, 2, 4, 4]).then(|| format!("{out:?}")), || "5 draws of 5 numbers".into());
}

/// Worked examples of Sheet: m is given, so with h 0 as well; further bytes are passed over; 7 before 20, 20 before 12; m × h is meant exactly; and a sheet of
/// far more scenarios than the output has room for is refused at once. Those that are served have the output of every length up to two bytes more.
fn worked_sheets(tally: &mut Tally, rng: &mut Random) {
    let most = u64::MAX;
    let three = &[0, 1, 2, 3, 4, 0, 1, 2, 3, 9, 0, 1, 7, 7, 7][..];
    let by_two = "load 0|run 0 1|save 1|run 2 3|save 2|run 4|load 2|run 9|load 1|run 7 7|save 2|run 7|";
    for (scenarios, m, h, g, lines, total) in [
        (three, 3, 5, 2, by_two, 9),
        (three, 2, 5, 3, "load 0|run 0 1 2|save 1|run 3 4|load 1|run 3 9|", 7),
        (three, 1, 5, 1, "load 0|run 0|save 1|run 1|save 2|run 2|save 3|run 3|save 4|run 4|save 5|", 5),
        (three, 2, 4, 2, "load 0|run 0 1|save 1|run 2 3|save 2|load 0|run 4 0|save 1|run 1 2|save 2|", 8),
        (three, 1, 15, most, "load 0|run 0 1 2 3 4 0 1 2 3 9 0 1 7 7 7|", 15),
        (three, 3, 0, 1, "load 0|load 0|load 0|", 0),
        (three, 0, 5, 2, "", 0),
        (&[], 0, 0, 1, "", 0),
        (&[], 0, 1000, most, "", 0),
        (&[], 3, 0, most, "load 0|load 0|load 0|", 0),
        (&[255], 1, 1, 1, "load 0|run 255|save 1|", 1),
        (&[255], 1, 1, 2, "load 0|run 255|", 1),
        (&[7, 7], 2, 1, 1, "load 0|run 7|save 1|load 1|", 1),
        (&[7, 7], 2, 1, 2, "load 0|run 7|load 0|run 7|", 2),
        (&[7, 7], 2, 1, 1 << 63, "load 0|run 7|load 0|run 7|", 2),
        (&[9, 10, 99, 100, 9, 10, 99, 100], 2, 4, 4, "load 0|run 9 10 99 100|save 1|load 1|", 4),
        (&[9, 10, 99, 100, 9, 10, 99, 100], 2, 4, 3, "load 0|run 9 10 99|save 1|run 100|load 1|run 100|", 5),
    ] {
        let wanted = lines.replace(' ', "\t").replace('|', "\n").into_bytes();
        for out in 0..=wanted.len() + 2 {
            let want = sheet(tally, rng, (scenarios, m, h, g, out));
            let served = (want.number, want.words) == (0, [wanted.len() as u64, total]) && want.out[..wanted.len()] == wanted;
            assert!(if out < wanted.len() { want.number == 12 } else { served }, "the independent sheet of a worked example: {lines}");
        }
    }
    let zeros = &[0; 4000][..];
    for (scenarios, m, h, g, out, number) in [
        (zeros, 4, 1000, 100, 9000, 0),
        (zeros, 4, 1000, 1000, 9000, 0),
        (zeros, 3, 1001, 100, 9000, 7),
        (zeros, 3, 1001, 0, 9000, 7),
        (zeros, 9, 1001, 0, 0, 7),
        (zeros, 0, 1001, 1, 0, 7),
        (zeros, most, most, most, 9000, 7),
        (zeros, 0, 1 << 32, 1, 0, 7),
        (zeros, 0, 1 << 63, 1, 0, 7),
        (zeros, 0, 0, 0, 0, 20),
        (zeros, 4, 1000, 0, 9000, 20),
        (zeros, 5, 1000, 0, 9000, 20),
        (zeros, 4, 1000, 0, 0, 20),
        (zeros, most, 1000, 0, 0, 20),
        (&zeros[..3999], 4, 1000, 100, 9000, 12),
        (&zeros[..3999], 3, 1000, 100, 9000, 0),
        (zeros, 4, 1000, 100, 9, 12),
        (&[], 1, 1, 1, 9000, 12),
        (zeros, 1 << 62, 4, 1, 9000, 12),
        (zeros, (1 << 62) + 1, 4, 1, 9000, 12),
        (zeros, 1 << 63, 2, 1, 9000, 12),
        (zeros, 1 << 61, 1000, 100, 9000, 12),
        (zeros, (1 << 61) + 1, 1000, 100, 9000, 12),
        (zeros, most / 5 + 1, 5, 1, 9000, 12),
        (zeros, 1 << 32, 1, 1, 9000, 12),
        (zeros, most, 1, 1, 9000, 12),
        (zeros, most, 0, 1, 9000, 12),
        (zeros, most, 0, most, 9000, 12),
        (zeros, 1 << 63, 0, 1, 9000, 12),
        (zeros, most / 7 + 1, 0, 1, 9000, 12),
        (zeros, 1 << 61, 0, 1, 9000, 12),
        (zeros, 1 << 32, 0, 1, 9000, 12),
        (zeros, 1286, 0, 1, 9000, 12),
        (zeros, 1285, 0, 1, 9000, 0),
        (zeros, 1286, 0, 1, 9002, 0),
        (&[], 1, 0, 1, 0, 12),
    ] {
        let want = sheet(tally, rng, (scenarios, m, h, g, out));
        assert_eq!(
            want.number,
            number,
            "the independent sheet of a worked example: m {m}, h {h}, g {g}, {} bytes, {out} output",
            scenarios.len()
        );
    }
}

/// A length at, below or above what is needed.
fn about(rng: &mut Random, need: usize) -> usize {
    match rng.below(12) {
        0 => need.saturating_sub(1),
        1 => rng.below(need as u64 + 1) as usize,
        2 | 3 => need + rng.from_to(1, 40) as usize,
        4 => need + 1,
        _ => need,
    }
}

fn horizon(rng: &mut Random) -> u64 {
    match rng.below(40) {
        0 => *rng.pick(&[1000, 1001, 1002, 65536, 1 << 32, 1 << 63, u64::MAX]),
        1 | 2 => rng.from_to(50, 90),
        3 | 4 => rng.from_to(9, 30),
        _ => rng.below(8),
    }
}

/// The words of the lines that begin a monitor.
const KINDS: [&str; 5] = ["mon", "gap", "reply", "bal", "day"];
/// The words of the other lines of a monitor, each with the kind that it belongs to.
const PARTS: [(&str, &str); 4] = [("go", "mon"), ("stop", "mon"), ("amp", "bal"), ("open", "day")];

/// The word and the other fields of the line at this place, from 1, if there is such a line of a monitor and it is ended.
fn line_at(t: &[u8], place: u64) -> Option<(&'static str, Vec<&[u8]>)> {
    let line = t.split_inclusive(|&b| b == 10).nth((place as usize).checked_sub(1)?)?;
    let mut fields = line.strip_suffix(b"\n")?.split(|&b| b == 9);
    let first = fields.next()?;
    let mut words = KINDS.into_iter().chain(PARTS.map(|(word, _)| word));
    Some((words.find(|w| w.as_bytes() == first)?, fields.collect()))
}

/// The lines of monitors before this place, the nearest first: the word and the numbers of each.
fn before(t: &[u8], place: u64) -> impl Iterator<Item = (&'static str, Vec<i64>)> + '_ {
    (1..place).rev().filter_map(|k| line_at(t, k)).filter_map(|(w, fields)| Some((w, numbers(&fields)?)))
}

/// The numbers of a line's fields.
fn numbers(fields: &[&[u8]]) -> Option<Vec<i64>> {
    fields.iter().map(|f| model::signed(f)).collect()
}

/// Why a `bal`, `amp`, `day` or `open` line is refused, where nothing else is wrong with it.
fn cause(t: &[u8], number: u64, place: u64) -> Option<&'static str> {
    let (w, fields) = line_at(t, place)?;
    if number == 2 {
        let unsigned: Vec<Vec<u8>> = fields.iter().map(|f| f.iter().copied().filter(|b| !b"+-".contains(b)).collect()).collect();
        let right = unsigned.iter().all(|f| model::number(f).is_some());
        return match (w, unsigned.len()) {
            ("bal" | "amp", 2) | ("day", 1) | ("open", 3) => Some(if right { "sign" } else { "no number" }),
            _ => Some("fields"),
        };
    }
    let before = || before(t, place);
    let kinds = || before().filter(|(w, _)| KINDS.contains(w));
    let events = t.split(|b| b"\t\n".contains(b)).nth(1).and_then(model::number)? as i64;
    match (w, number, &numbers(&fields)?[..]) {
        ("bal", 3, [lo, hi]) => match ((-15..=0).contains(lo), (0..=15).contains(hi)) {
            (false, true) => Some("lo"),
            (true, false) => Some("hi"),
            (true, true) => Some("fifth"),
            _ => None,
        },
        ("amp", 3, [_, -15..=15]) => Some("e"),
        ("amp", 3, [e, _]) => (*e < events).then_some("d"),
        ("amp", 4, [e, d]) => match before().find(|(w, given)| *w == "amp" && given[0] == *e)?.1[..] {
            _ if *d == 0 => Some("again, 0"),
            [_, given] if given == *d => Some("again, the same"),
            _ => Some("again, another"),
        },
        ("day", 3, [2..=32]) => Some("fifth"),
        ("day", 3, _) if kinds().count() < 4 => Some("T"),
        ("open", 3, [e, a, b]) => match (*e < events, *b <= kinds().next()?.1[0], a < b) {
            (false, true, true) => Some("e"),
            (false, true, false) => Some("e, a not below b"),
            (true, false, true) => Some("b"),
            (true, false, false) => Some("b, a not below b"),
            _ => None,
        },
        ("open", 18, [_, a, b]) => match kinds().next()?.1[0] {
            _ if a == b => Some("a equals b"),
            t if *a >= t => Some("a over b, past the day"),
            _ => Some("a over b"),
        },
        _ => None,
    }
}

/// Counts the word of the line that a text is refused for; and the latest monitor's too, where that line doesn't belong to it; and the cause, where it is
/// a `bal`, `amp`, `day` or `open` line.
fn refused(tally: &mut Tally, t: &[u8], number: u64, place: u64) {
    let Some((w, _)) = line_at(t, place) else { return };
    *tally.lines.entry((w, number)).or_default() += 1;
    if number == 5 && !KINDS.contains(&w) {
        let latest = before(t, place).map(|(w, _)| w).find(|w| KINDS.contains(w));
        *tally.others.entry((w, latest.unwrap_or("none"))).or_default() += 1;
    }
    if let ("bal" | "amp" | "day" | "open", Some(cause)) = (w, cause(t, number, place)) {
        *tally.causes.entry((w, cause)).or_default() += 1;
    }
}

/// The calls on one text, readable or not.
fn calls_on(tally: &mut Tally, rng: &mut Random, t: &[u8]) {
    let h = horizon(rng);
    let rig = model::read(t);
    let states = states(&rig);
    let events = rig.as_ref().map_or(2, |r| r.events as u64);
    let [need, small] = [model::all_rows, model::few_rows].map(|need| need(h.min(1000) as usize, states));
    let cells = about(rng, need);
    let counted = count(tally, rng, t, h, cells);
    match (&rig, counted.number) {
        (Ok(rig), 0) => {
            let stoppable = rig.monitors.iter().all(|m| !m.marked.is_empty());
            let (live, scenarios) = (&counted.cells[..states], &counted.cells[h as usize * states..]);
            tally.begun += rig.monitors.iter().any(|m| m.start > 0) as u64;
            tally.ordered += !rig.order.is_sorted() as u64;
            tally.stoppable += stoppable as u64;
            tally.vain += live.iter().zip(scenarios).any(|(&live, &n)| live == 1 && n == 0) as u64;
            let has = |kind| rig.monitors.iter().any(|m| m.kind == kind);
            let bal = |is: fn(&Monitor) -> bool| rig.monitors.iter().any(|m| m.kind == Kind::Bal && is(m));
            let (two, only) =
                (|kind| rig.monitors.iter().filter(|m| m.kind == kind).count() > 1, |kind| rig.monitors.iter().all(|m| m.kind == kind));
            let kinds: BTreeSet<Kind> = rig.monitors.iter().map(|m| m.kind).collect();
            for (kind, served) in [
                ("gap", has(Kind::Gap)),
                ("reply", has(Kind::Reply)),
                ("bal, lo below 0", bal(|m| m.start > 0)),
                ("bal, lo 0", bal(|m| m.start == 0)),
                ("bal, hi 0", bal(|m| m.start == m.states - 1)),
                ("bal 0 0", bal(|m| m.states == 1)),
                ("two bal", two(Kind::Bal)),
                ("day", has(Kind::Day)),
                ("day with hours", rig.monitors.iter().any(|m| m.kind == Kind::Day && m.moves.len() < m.states * rig.events)),
                ("two day", two(Kind::Day)),
                ("no mon", !has(Kind::Mon)),
                ("only bal", only(Kind::Bal)),
                ("only day", only(Kind::Day)),
                ("three or four kinds", kinds.len() > 2),
            ] {
                *tally.kinds.entry(kind).or_default() += served as u64;
            }
        }
        (Ok(rig), 9) => tally.over += counted.cells[rig.start()],
        (Err((number, place)), _) => refused(tally, t, *number, *place),
        _ => (),
    }
    let n = if counted.number == 0 { counted.words[0] } else { 1 + rng.below(5) };
    let mut list: Vec<u64> = (0..rng.below(6)).map(|_| rng.below(n)).collect();
    for i in &mut list {
        match rng.below(20) {
            0 => *i = n,
            1 => *i = *rng.pick(&[u64::MAX, n - 1, n.saturating_add(1), 0]),
            _ => (),
        }
    }
    let (cells, out) = (about(rng, need), about(rng, list.len() * h.min(1001) as usize));
    let listed = scenarios(tally, rng, t, h, &list, cells, out);
    // with numbers of its own, so that all others are as without it
    let own = &mut rng.clone();
    let (cells, out) = (about(own, small), about(own, list.len() * h.min(1001) as usize));
    scenarios_small(tally, own, t, h, &list, cells, out);
    let length = h.min(1001) as usize;
    let mut sequence: Vec<u8> = (0..length).map(|_| rng.below(events) as u8).collect();
    if listed.number == 0 && !list.is_empty() && rng.chance(3, 4) {
        sequence.copy_from_slice(&listed.out[..length]);
    }
    if length > 0 {
        let at = rng.below(length as u64) as usize;
        match rng.below(12) {
            0 => sequence[at] = events as u8,
            1 => sequence[at] = rng.word() as u8,
            2 | 3 => sequence[at] = rng.below(events) as u8,
            _ => (),
        }
    }
    let cells = about(rng, need);
    index(tally, rng, t, &sequence, cells);
}

/// Demand 3 on one small rig, by its moves. Gives back whether any sequence of h events belongs.
fn demand(tally: &mut Tally, rng: &mut Random, t: &[u8], h: usize) -> bool {
    let rig = model::read(t).expect("a readable text");
    let runs = Runs::of(&rig);
    let names = ["demand 3: count", "demand 3: scenarios", "demand 3: index", "demand 3: shuffle", "demand 3: seed"];
    held(tally, rng, names, t, runs.passes(), &sequences(&rig, &runs, h))
}

/// Demand 3 on one small rig, by the sentences of its lines. Where every state is marked, one pass removes none.
fn by_sentences(tally: &mut Tally, rng: &mut Random, rules: &[Rule], order: &[usize], h: usize) {
    let t = ruled(rules, order);
    let passes = if all_marked(rules) { 1 } else { Runs::of(&model::read(&t).expect("a readable text")).passes() };
    let all = rules::sequences(rules, order, h);
    tally.dropped += all.iter().filter(|(w, bad)| bad.is_some() && admitted(rules, w)).count() as u64;
    let names = ["sentences: count", "sentences: scenarios", "sentences: index", "sentences: shuffle", "sentences: seed"];
    if held(tally, rng, names, &t, passes, &all) {
        let kinds: BTreeSet<&str> = rules.iter().map(Rule::word).collect();
        *tally.mixed.entry(kinds.into_iter().collect()).or_default() += 1;
    }
}

/// Shuffles by these draws, one for each sequence that belongs, and lists: what is wrong, unless each of those comes exactly once.
fn incomplete(t: &[u8], draws: &[u64], cells: &mut [u64], belong: &[&Vec<u8>]) -> Option<String> {
    let (n, h) = (belong.len(), belong[0].len());
    let (mut scratch, mut mixed) = (vec![9u64; 2 * n], vec![1u64; n + 2]);
    let told = calls::shuffle(n as u64, draws, &mut scratch, &mut mixed);
    let mut out = vec![0u8; n * h];
    let listed = calls::scenarios(t, h as u64, &mixed[..n], cells, &mut out);
    let mut given: Vec<Vec<u8>> = (0..n).map(|k| out[k * h..(k + 1) * h].to_vec()).collect();
    let mut each: Vec<Vec<u8>> = belong.iter().map(|w| w.to_vec()).collect();
    given.sort();
    each.sort();
    let once = given == each;
    told_differs(told, 0, [0, 0]).or(told_differs(listed, 0, [0, 0])).or((!once).then(|| "not each scenario exactly once".into()))
}

/// Demand 3: both counts, order, scenarios, indices and full shuffles, by draws from outside and from a seed, against every sequence of some length. Gives
/// back whether any belongs.
fn held(tally: &mut Tally, rng: &mut Random, names: [&'static str; 5], t: &[u8], passes: u64, all: &[Judged]) -> bool {
    let states = model::read(t).expect("a readable text").joint_states();
    let h = all[0].0.len();
    let belong: Vec<&Vec<u8>> = all.iter().filter(|(_, bad)| bad.is_none()).map(|(w, _)| w).collect();
    let beginnings: HashSet<&[u8]> = belong.iter().flat_map(|w| (0..=h).map(|k| &w[..k])).collect();
    let n = belong.len() as u64;
    let input = || format!("h {h}, {}", shown(t));
    let mut cells = vec![7u64; (h + 1) * states];
    let number = if n == 0 { 9 } else { 0 };
    let words = if n == 0 { [0, 0] } else { [n, passes] };
    let forward = calls::count_forward(t, h as u64, &mut vec![7; model::two_rows(h, states)]);
    for told in [calls::count(t, h as u64, &mut cells), forward] {
        tally.note(names[0], number, told_differs(told, number, words), input);
    }
    let mut list: Vec<u64> = (0..n).collect();
    list.extend((0..n.min(5)).map(|_| rng.below(n)));
    let mut out = vec![0xEEu8; list.len() * h + 3];
    let told = calls::scenarios(t, h as u64, &list, &mut cells, &mut out);
    let mut want: Vec<u8> = list.iter().flat_map(|&i| belong[i as usize].clone()).collect();
    want.extend([0xEE; 3]);
    let wrong = told_differs(told, number, [0, 0]).or((out != want).then(|| "other scenarios or another order".into()));
    tally.note(names[1], number, wrong, input);
    let mut i = 0;
    for (w, bad) in all {
        let (number, word) = match (n, bad) {
            (0, _) => (9, 0),
            (_, Some(k)) => {
                tally.late += !beginnings.contains(&w[..*k as usize]) as u64;
                (14, *k)
            }
            (_, None) => {
                i += 1;
                (0, i - 1)
            }
        };
        let told = calls::index(t, w, &mut cells);
        tally.note(names[2], number, told_differs(told, number, [word, 0]), || format!("sequence {w:?}, {}", shown(t)));
    }
    if n == 0 {
        return false;
    }
    for _ in 0..3 {
        let draws: Vec<u64> = (0..n).map(|i| rng.from_to(i, n - 1)).collect();
        tally.note(names[3], 0, incomplete(t, &draws, &mut cells, &belong), input);
    }
    // with numbers of its own, so that all others are as without it
    let own = &mut rng.clone();
    let mut draws = vec![n; belong.len()];
    let told = calls::draws(n, n, own.word(), own.from_to(1, 255) as u8, &mut draws);
    tally.note(names[4], 0, told_differs(told, 0, [0, 0]).or(incomplete(t, &draws, &mut cells, &belong)), input);
    true
}

/// A readable rig and the same one with its states renumbered, so that every monitor starts in 0: the library tells the same count and passes,
/// and writes the same scenarios.
fn renumbered(tally: &mut Tally, rng: &mut Random, t: &[u8], h: u64) {
    let rig = model::read(t).expect("a readable text");
    let from_0 = from_state_0(&rig, rng);
    let mut cells = vec![0u64; (h as usize + 1) * rig.joint_states()];
    let told = calls::count(t, h, &mut cells);
    let same = calls::count(&from_0, h, &mut cells);
    let input = || format!("h {h}, {} and {}", shown(t), shown(&from_0));
    tally.note("renumbered: count", same.number, told_differs(told, same.number, same.words), input);
    let n = if same.number == 0 { same.words[0] } else { 0 };
    let list: Vec<u64> = (0..n.min(40)).map(|i| if n <= 40 { i } else { rng.below(n) }).collect();
    let (mut out, mut same_out) = (vec![1u8; list.len() * h as usize], vec![2u8; list.len() * h as usize]);
    let told = calls::scenarios(t, h, &list, &mut cells, &mut out);
    let same = calls::scenarios(&from_0, h, &list, &mut cells, &mut same_out);
    let wrong = told_differs(told, same.number, same.words).or((same.number == 0 && out != same_out).then(|| "other bytes".into()));
    tally.note("renumbered: scenarios", same.number, wrong, input);
}

/// A readable rig with its `ord` line and without it: the library tells the same count and passes, and writes the same scenarios, each list in its order.
fn reordered(tally: &mut Tally, rng: &mut Random, t: &[u8], h: u64) {
    let rig = model::read(t).expect("a readable text");
    let plain = lower_first(t);
    let mut cells = vec![0u64; (h as usize + 1) * rig.joint_states()];
    let told = calls::count(t, h, &mut cells);
    let same = calls::count(&plain, h, &mut cells);
    let input = || format!("h {h}, {} and {}", shown(t), shown(&plain));
    tally.note("reordered: count", same.number, told_differs(told, same.number, same.words), input);
    if same.number != 0 || same.words[0] > 300 {
        return;
    }
    let list: Vec<u64> = (0..same.words[0]).collect();
    let mut listed = |t: &[u8]| -> Vec<Vec<u8>> {
        let mut out = vec![1u8; list.len() * h as usize];
        calls::scenarios(t, h, &list, &mut cells, &mut out);
        (0..list.len()).map(|k| out[k * h as usize..(k + 1) * h as usize].to_vec()).collect()
    };
    let (ours, mut theirs) = (listed(t), listed(&plain));
    let in_order = theirs.is_sorted();
    theirs.sort_by_key(|w| w.iter().map(|&e| rig.order.iter().position(|&d| d == e as usize)).collect::<Vec<_>>());
    let wrong = (!in_order || ours != theirs).then(|| format!("{ours:?} and {theirs:?}"));
    tally.note("reordered: scenarios", 0, wrong, input);
    let at = rng.below(list.len() as u64) as usize;
    tally.note("reordered: index", 0, told_differs(calls::index(t, &ours[at], &mut cells), 0, [at as u64, 0]), input);
}

/// A readable rig with its `stop` lines and without them. Where some monitor has none, the library tells the same, fills the same cells and writes
/// the same scenarios; where all have some, no count is lower and no scenario is lost.
fn unmarked(tally: &mut Tally, t: &[u8], h: u64) {
    let rig = model::read(t).expect("a readable text");
    let plain = endless(t);
    if plain == t {
        return;
    }
    let mut cells = vec![1u64; (h as usize + 1) * rig.joint_states()];
    let mut plain_cells = cells.clone();
    let (told, same) = (calls::count(t, h, &mut cells), calls::count(&plain, h, &mut plain_cells));
    let all = rig.monitors.iter().all(|m| !m.marked.is_empty());
    let input = || format!("h {h}, {} and {}", shown(t), shown(&plain));
    let wrong = if all {
        cells.iter().zip(&plain_cells).any(|(n, plain)| n < plain).then(|| "a lower count".into())
    } else {
        told_differs(told, same.number, same.words).or((cells != plain_cells).then(|| "other cells".into()))
    };
    tally.note(if all { "all marked: count" } else { "some marked: count" }, same.number, wrong, input);
    if same.number != 0 || told.number != 0 || told.words[0] > 300 {
        return;
    }
    let mut listed = |t: &[u8], n: u64| -> Vec<Vec<u8>> {
        let mut out = vec![1u8; n as usize * h as usize];
        calls::scenarios(t, h, &(0..n).collect::<Vec<u64>>(), &mut cells, &mut out);
        (0..n as usize).map(|k| out[k * h as usize..(k + 1) * h as usize].to_vec()).collect()
    };
    let (ours, theirs) = (listed(t, told.words[0]), listed(&plain, same.words[0]));
    let wrong = if all { theirs.iter().any(|w| !ours.contains(w)) } else { ours != theirs };
    let name = if all { "all marked: listed" } else { "some marked: listed" };
    tally.note(name, 0, wrong.then(|| format!("{ours:?} and {theirs:?}")), input);
}

/// A readable rig with `gap`, `reply`, `bal` or `day` lines, and the same one with these as `mon`, `go` and `stop` lines: the library tells the same, fills
/// the same cells and writes the same bytes.
fn as_moves(tally: &mut Tally, rng: &mut Random, t: &[u8], h: u64) {
    let rig = model::read(t).expect("a readable text");
    if rig.monitors.iter().all(|m| m.kind == Kind::Mon) {
        return;
    }
    let moves = written_out(&rig);
    let need = (h as usize + 1) * rig.joint_states();
    let input = || format!("h {h}, {} and {}", shown(t), shown(&moves));
    let (mut cells, mut same_cells) = (vec![3u64; need + 2], vec![3u64; need + 2]);
    let (told, same) = (calls::count(t, h, &mut cells), calls::count(&moves, h, &mut same_cells));
    let other = |a: &[u64], b: &[u64]| (a != b).then(|| "other cells".to_string());
    tally.note("as moves: count", same.number, told_differs(told, same.number, same.words).or(other(&cells, &same_cells)), input);
    let n = if same.number == 0 { same.words[0] } else { 1 };
    let list: Vec<u64> = (0..4).map(|k| if k == 3 && rng.chance(1, 8) { n } else { rng.below(n) }).collect();
    let (mut out, mut same_out) = (vec![1u8; 4 * h as usize], vec![1u8; 4 * h as usize]);
    let (told, same) =
        (calls::scenarios(t, h, &list, &mut cells, &mut out), calls::scenarios(&moves, h, &list, &mut same_cells, &mut same_out));
    let wrong = told_differs(told, same.number, same.words)
        .or(other(&cells, &same_cells))
        .or((out != same_out).then(|| format!("{out:?} and {same_out:?}")));
    tally.note("as moves: scenarios", same.number, wrong, input);
    let mut w: Vec<u8> = (0..h).map(|_| rng.below(rig.events as u64) as u8).collect();
    if same.number == 0 && rng.chance(3, 4) {
        w.copy_from_slice(&same_out[..h as usize]);
    }
    let (told, same) = (calls::index(t, &w, &mut cells), calls::index(&moves, &w, &mut same_cells));
    let wrong = told_differs(told, same.number, same.words).or(other(&cells, &same_cells));
    tally.note("as moves: index", same.number, wrong, || format!("sequence {w:?}, {} and {}", shown(t), shown(&moves)));
}

/// What the library says of every sequence of up to 7 events under every `gap` and `reply` line with n and hi up to 5, and every `bal` with numbers up to 2,
/// alone, is what its sentence says; and so of every two lines with n and hi up to 4, numbers up to 1, or T up to 3, over two events, and of random ones.
fn sentences(tally: &mut Tally, rng: &mut Random) {
    for events in 1..=3 {
        for rule in Rule::every(events, 5) {
            (0..=7).for_each(|h| by_sentences(tally, rng, from_ref(&rule), &(0..events as usize).collect::<Vec<_>>(), h));
        }
    }
    for rule in Rule::every_bal(2) {
        (0..=7).for_each(|h| by_sentences(tally, rng, from_ref(&rule), &[0, 1], h));
    }
    assert_eq!(tally.dropped, 0, "what one line admits can be carried on");
    let small = Rule::every(2, 4);
    let days = [2, 3].into_iter().flat_map(|t| [0, 1].map(|e| Rule::every_day(t, &[e]))).flatten();
    let marked: Vec<Rule> = Rule::every_bal(1).into_iter().chain(days).collect();
    for two in small.iter().flat_map(|a| small.iter().chain(&marked).map(move |b| [a.clone(), b.clone()])) {
        (0..=6).for_each(|h| by_sentences(tally, rng, &two, &[1, 0], h));
    }
    let mut random = |tally: &mut Tally, chosen: Chosen, rounds: u64| {
        for _ in 0..rounds {
            let ((rules, order), h) = (rules::beside(chosen, rng), rng.below(6) as usize);
            by_sentences(tally, rng, &rules, &order, h);
        }
    };
    random(tally, Rule::random, 1_000);
    random(tally, Rule::random_kind, 12_000);
    let dropped = tally.dropped;
    random(tally, Rule::random_bal, 1_000);
    random(tally, Rule::random_day, 1_000);
    for two in marked.iter().flat_map(|a| marked.iter().map(move |b| [a.clone(), b.clone()])) {
        (0..=5).for_each(|h| by_sentences(tally, rng, &two, &[1, 0], h));
    }
    assert_eq!(tally.dropped, dropped, "what `bal` and `day` lines admit belongs");
}

/// Every lo and hi with every step, beside steps of 1, -1 and none: every sequence of up to two events is judged by its sums, and so many of 31 events are
/// counted as keep their sums in the band. And for every lo and hi all steps together, half of them in each of two rigs of 16 events.
fn bands(tally: &mut Tally, rng: &mut Random) {
    for (lo, hi) in rules::bands(15) {
        for d in -15..=15 {
            let rule = Rule::Bal { lo, hi, steps: steps(&[Some(d), Some(1), Some(-1)]) };
            (0..=2).for_each(|h| by_sentences(tally, rng, from_ref(&rule), &[0, 1, 2, 3], h));
            let want = count(tally, rng, &ruled(from_ref(&rule), &[0, 1, 2, 3]), 31, 32 * rule.states());
            let kept = within(lo, hi, &[d, 1, -1, 0], 31);
            assert_eq!((want.number, want.words), (0, [kept, 1]), "the independent count of sums from {lo} to {hi}, with a step of {d}");
        }
        let mut all: Vec<Option<i64>> = (-15..=15).map(Some).chain([None]).collect();
        rng.shuffle(&mut all);
        for half in all.chunks(16) {
            let rule = Rule::Bal { lo, hi, steps: steps(half) };
            let order: Vec<usize> = (0..16).collect();
            (0..=2).for_each(|h| by_sentences(tally, rng, from_ref(&rule), &order, h));
            as_moves(tally, rng, &ruled(from_ref(&rule), &order), 15);
        }
    }
}

/// Every T from 2 to 7 and every a and b, for one event alone and beside one without: every sequence up to one that goes round the day and on. And every two
/// lines, of one event and of two, at one horizon that goes round the day. Every T and every a and b at a horizon that goes round the day twice, by how many
/// sequences there are, and by one of them; and random days with several lines for several events.
fn hours(tally: &mut Tally, rng: &mut Random) {
    for t in 2..=7 {
        for rule in Rule::every_day(t, &[0]) {
            for order in [&[0][..], &[0, 1], &[1, 0]] {
                (0..=t + 2).for_each(|h| by_sentences(tally, rng, from_ref(&rule), order, h));
            }
        }
        for rule in [&[0, 0], &[0, 1]].into_iter().flat_map(|events| Rule::every_day(t, events)) {
            by_sentences(tally, rng, &[rule], &[1, 0], t + 1);
        }
    }
    for (t, a, b) in (2..=32).flat_map(|t| intervals(t).map(move |(a, b)| (t, a, b))) {
        counted_in_hours(tally, rng, &Rule::Day { t, hours: vec![(1, a, b)] }, 2, 2 * t);
    }
    for _ in 0..4_000 {
        let (t, events) = (rng.from_to(2, 32), rng.from_to(1, 4));
        let h = rng.below(2 * t + 2) as usize;
        let day = Rule::random_day(t, events, rng);
        counted_in_hours(tally, rng, &day, events as usize, h);
    }
}

/// A `day` alone: so many sequences are counted as there are by their places, and one of them is judged.
fn counted_in_hours(tally: &mut Tally, rng: &mut Random, day: &Rule, events: usize, h: usize) {
    let Rule::Day { t, hours } = day else { unreachable!("a `day`") };
    let kept = in_hours(*t, hours, events, h);
    let expected = match kept {
        0 => (9, [0, 0]),
        u64::MAX => (10, [0, 0]),
        _ => (0, [kept, 1]),
    };
    let order: Vec<usize> = (0..events).collect();
    let want = count(tally, rng, &ruled(from_ref(day), &order), h as u64, (h + 1) * t);
    assert_eq!((want.number, want.words), expected, "the independent count inside the hours of {day:?}");
    if want.number == 0 {
        judged(tally, rng, from_ref(day), events as u64, h);
    }
}

/// A sequence that the lines admit as long as they admit any event; half of them with one event changed.
fn walk(rng: &mut Random, rules: &[Rule], events: u64, h: usize) -> Vec<u8> {
    let mut w = vec![];
    for _ in 0..h {
        w.push(rng.below(events) as u8);
        for _ in 0..events {
            if !admitted(rules, &w) {
                *w.last_mut().unwrap() = (w[w.len() - 1] + 1) % events as u8;
            }
        }
    }
    if h > 0 && rng.chance(1, 2) {
        w[rng.below(h as u64) as usize] = rng.below(events) as u8;
    }
    w
}

/// Long sequences under `gap`, `reply`, `bal` and `day` lines with numbers of any size. Where a line is alone, or every state is marked, a sequence is refused
/// at the event at which a sentence fails; beside others, there or earlier. What is listed or has an index is admitted by all.
fn long_sequences(tally: &mut Tally, rng: &mut Random) {
    for k in 0..6_000 {
        let events = rng.from_to(2, 4);
        let h = rng.below([0, 0, 60, 38, 30][events as usize] + 1) as usize;
        let (sizes, chosen): (_, Chosen) = match k % 4 {
            0 => (vec![rng.from_to(2, 32)], Rule::random),
            1 => (vec![rng.from_to(2, 32), rng.from_to(2, 8), rng.from_to(2, 4)], Rule::random),
            2 => (vec![rng.from_to(1, 31), rng.from_to(1, 16), rng.from_to(1, 2)], Rule::random_bal),
            _ => (vec![rng.from_to(2, 32), rng.from_to(2, 8), rng.from_to(2, 4)], Rule::random_day),
        };
        let rules: Vec<Rule> = sizes.iter().map(|&s| chosen(s, events, rng)).collect();
        judged(tally, rng, &rules, events, h);
    }
    // few enough sequences for a long horizon: one of the two events comes at most once in 17 steps, or as often as steps of 1 make up for its step down,
    // or in one or two of the steps of a long day
    for _ in 0..120 {
        let n = rng.from_to(17, 32) as usize;
        let (a, lo) = (rng.below(2) as u8, rng.from_to(16, n as u64 - 1) as usize);
        let d = rng.from_to(12, 15) as i64;
        let bal = Rule::Bal { lo: -(rng.below(3) as i64), hi: d, steps: steps(&[Some(1), Some(-d)]) };
        let (from, t) = (rng.below(26) as usize, rng.from_to(27, 32) as usize);
        let day = Rule::Day { t, hours: vec![(a, from, from + rng.from_to(1, 2) as usize)] };
        let rule = rng.pick(&[Rule::Gap { e: a, n }, Rule::Reply { a, b: 1 - a, lo, hi: n - 1 }, bal, day]).clone();
        let h = rng.from_to(100, 300) as usize;
        judged(tally, rng, &[rule], 2, h);
    }
}

/// Compares the index of one sequence, and some scenarios, under these lines; and with what the sentences say.
fn judged(tally: &mut Tally, rng: &mut Random, rules: &[Rule], events: u64, h: usize) {
    let t = ruled(rules, &(0..events as usize).collect::<Vec<_>>());
    let w = walk(rng, rules, events, h);
    let cells = (h + 1) * rules.iter().map(Rule::states).product::<usize>();
    let want = index(tally, rng, &t, &w, cells);
    let fails = (0..h).find(|&k| !admitted(rules, &w[..=k])).map(|k| k as u64);
    match (want.number, fails) {
        (0, None) | (9, _) => (),
        (14, _) if rules.len() == 1 || all_marked(rules) => {
            assert_eq!(Some(want.words[0]), fails, "where the sentence fails: {w:?}, {rules:?}")
        }
        (14, _) => assert!(fails.is_none_or(|k| want.words[0] <= k), "no later than where a sentence fails: {w:?}, {rules:?}"),
        (number, _) => panic!("{number}, but the sentences fail at {fails:?}: {w:?}, {rules:?}"),
    }
    let counted = model::count(&t, h as u64, &vec![0; cells]);
    if counted.number == 0 {
        let list: Vec<u64> = (0..4).map(|_| rng.below(counted.words[0])).collect();
        let listed = scenarios(tally, rng, &t, h as u64, &list, cells, 4 * h);
        let all = (0..4).all(|k| admitted(rules, &listed.out[k * h..(k + 1) * h]));
        assert!(listed.number == 0 && all, "a scenario that a sentence doesn't admit: {rules:?}");
        tally.admitted += 1;
    }
}

/// Draws for a shuffle of n numbers, most of them valid.
fn any_draws(rng: &mut Random, n: u64, z: usize) -> Vec<u64> {
    let kind = rng.below(6);
    let mut ds: Vec<u64> = (0..z as u64)
        .map(|i| match (i < n, kind) {
            (false, _) => i,
            (_, 0) => n - 1,
            (_, 1) => rng.from_to(i, (n - 1).min(i.saturating_add(3))),
            (_, 2) => (n - 1).min(z as u64 + i % 3).max(i),
            (_, 3) => i,
            (_, 4) => n - 1 - rng.below((n - i).min(z as u64 + 1)),
            _ => rng.from_to(i, n - 1),
        })
        .collect();
    if z > 0 && rng.chance(1, 6) {
        let at = rng.below(z as u64) as usize;
        ds[at] = *rng.pick(&[n, u64::MAX, 0, (at as u64).saturating_sub(1), n.saturating_sub(1), n.saturating_add(1)]);
    }
    ds
}

/// Every list of up to six draws from 0 to n, valid or not, for every n up to 6. What the library puts out for the valid lists of z draws is
/// every z different numbers below n, in every order, once each. Gives back how many lists are valid.
fn all_shuffles(tally: &mut Tally, rng: &mut Random) -> usize {
    let mut valid = 0;
    for n in 0..=6u64 {
        for z in 0..=6usize {
            let (mut outputs, mut samples) = (vec![], vec![]);
            for code in 0..(n + 1).pow(z as u32) {
                let list: Vec<u64> = (0..z as u32).map(|i| code / (n + 1).pow(i) % (n + 1)).collect();
                let out = shuffle(tally, rng, n, &list, 2 * z, z);
                if (0..z).all(|i| (i as u64..n).contains(&list[i])) {
                    outputs.push(out);
                }
                if (0..z).all(|i| list[i] < n && !list[..i].contains(&list[i])) {
                    samples.push(list);
                }
            }
            outputs.sort();
            samples.sort();
            assert_eq!(samples.len() as u64, (0..z as u64).map(|i| n.saturating_sub(i)).product(), "the samples of {z} numbers below {n}");
            assert_eq!(outputs, samples, "what all valid lists of {z} draws put out for {n} numbers");
            valid += outputs.len();
        }
    }
    valid
}

/// z different numbers below n, in any order.
fn sample(rng: &mut Random, n: u64, z: u64) -> Vec<u64> {
    let (near, mut seen) = (rng.chance(1, 2), HashSet::new());
    let mut all = vec![];
    while (all.len() as u64) < z {
        let v = rng.below(if near { n.min(z + z / 4) } else { n });
        if seen.insert(v) {
            all.push(v);
        }
    }
    all
}

/// Any sample is what the library puts out for some valid draws.
fn samples(tally: &mut Tally, rng: &mut Random, rounds: u64) {
    let mut sizes: Vec<(u64, u64)> = vec![(u64::MAX, 50_000), (1 << 32, 20_000), (50_000, 50_000), (50_001, 50_000), (120_000, 50_000)];
    for _ in 0..rounds {
        let n = match rng.below(4) {
            0 => rng.below(60),
            1 => rng.below(500),
            2 => *rng.pick(&[u64::MAX, u64::MAX - 1, 1 << 63, 1 << 32]),
            _ => rng.word(),
        };
        sizes.push((n, rng.below(n.min(100) + 1)));
    }
    for (n, z) in sizes {
        let wanted = sample(rng, n, z);
        let out = shuffle(tally, rng, n, &model::draws_of(&wanted), 2 * z as usize, z as usize);
        assert!(out == wanted, "{z} numbers below {n} that the library does not put out: {:?}", &wanted[..wanted.len().min(20)]);
    }
}

fn shuffles(tally: &mut Tally, rng: &mut Random, rounds: u64) {
    for _ in 0..rounds {
        let n = match rng.below(8) {
            0 => rng.below(3),
            1 => *rng.pick(&[u64::MAX, u64::MAX - 1, 1 << 63, 1 << 32, (1 << 32) - 1]),
            2 => rng.word(),
            _ => rng.below(60),
        };
        let z = match rng.below(5) {
            0 => n.min(200) as usize,
            1 => n.saturating_add(rng.below(3)).min(200) as usize,
            _ => rng.below(n.min(100) + 1) as usize,
        };
        let ds = any_draws(rng, n, z);
        let (scratch, out) = (about(rng, 2 * z), about(rng, z));
        shuffle(tally, rng, n, &ds, scratch, out);
    }
    for (n, z) in [
        (100_000, 100_000),
        (u64::MAX, 50_000),
        (150_000, 100_000),
        (300_000, 100_000),
        (1_000_000, 100_000),
        (1 << 40, 60_000),
        (50_001, 50_000),
    ] {
        let ds: Vec<u64> = (0..z).map(|i| rng.from_to(i, n - 1)).collect();
        shuffle(tally, rng, n, &ds, 2 * z as usize, z as usize);
    }
}

/// Every n up to 8, up to 10 draws, every output up to two numbers longer, with four limits and many seeds.
fn small_draws(tally: &mut Tally, rng: &mut Random) {
    let seeds: Vec<u64> = [0, 1, 1_234_567, 1 << 63, u64::MAX].into_iter().chain((0..60).map(|_| rng.word())).collect();
    for (n, z) in (0..=8).flat_map(|n| (0..=10).map(move |z| (n, z))) {
        for (out, limit) in (0..=z as usize + 2).flat_map(|out| [0, 1, 2, 255].map(|limit| (out, limit))) {
            for &seed in &seeds {
                draws(tally, rng, n, z, seed, limit, out);
            }
        }
    }
}

/// A number of any number of bits; or the greatest, a power of two, three times one, or one near these. Just above 2^63 nearly half of all raw numbers are
/// thrown away, at three times a power of two from 2^61 on a quarter, at a power of two none.
fn any_n(rng: &mut Random) -> u64 {
    match rng.below(8) {
        0 => u64::MAX - rng.below(3),
        1 | 2 => (1 << 63) + rng.below(70),
        3 => (3 << rng.from_to(58, 62)) + rng.below(40) - 20,
        4 => (1u64 << rng.below(64)).saturating_add(rng.below(12)).saturating_sub(3),
        _ => (rng.word() | 1 << 63).checked_shr(rng.below(65) as u32).unwrap_or(0),
    }
}

/// Draws of any n, by any seed and limit; Shuffle serves what they are where they are served. And some calls of many draws.
fn seeded(tally: &mut Tally, rng: &mut Random, rounds: u64) {
    for _ in 0..rounds {
        let n = any_n(rng);
        let limit = if rng.chance(1, 5) { rng.word() as u8 } else { *rng.pick(&[0, 1, 1, 2, 2, 3, 10, 255]) };
        let z = match rng.below(12) {
            0 => rng.word(),
            1 => n.min(200),
            2 => n.saturating_add(rng.below(3)).min(200),
            _ => rng.below(n.min(60) + 1),
        };
        let seed = if rng.chance(1, 10) { *rng.pick(&[0, u64::MAX]) } else { rng.word() };
        let room = about(rng, z.min(200) as usize);
        let (told, out) = draws(tally, rng, n, z, seed, limit, room);
        if told == (0, 0) {
            tally.thrown += (model::draws(n, z, seed, limit.min(1), &out).0 .0 == 19) as u64;
            shuffle(tally, rng, n, &out[..z as usize], 2 * z as usize, z as usize);
        }
    }
    let many = 50_000;
    for n in [many, u64::MAX, 1 << 40, (1 << 63) + 1, (1 << 63) + many, 3 << 61, 3 << 62] {
        for (limit, room) in [(255, many), (10, many), (8, many + 9)] {
            let seed = rng.word();
            draws(tally, rng, n, many, seed, limit, room as usize);
        }
    }
}

/// Raw numbers just below and at the least one that isn't thrown away, about w and its multiples, and at both ends: a seed is worked out that gives such a one
/// to one of the draws. Where n is so small that no other raw number is thrown away, 19 is expected just where that one is.
fn edges(tally: &mut Tally, rng: &mut Random, rounds: u64) {
    for _ in 0..rounds {
        let n = any_n(rng).max(1);
        let z = rng.from_to(1, n.min(9));
        let (i, limit) = (rng.below(z), *rng.pick(&[1, 1, 2, 255]));
        let w = n - i;
        let (least, multiple) = (model::least_kept(w), w * rng.from_to(1, u64::MAX / w));
        let raw = match rng.below(12) {
            0..=2 => least.saturating_sub(1),
            3 | 4 => least,
            5 => least + 1,
            6 => 0,
            7 => w - rng.below(2),
            8 => rng.below(w),
            9 => multiple,
            10 => multiple - 1,
            _ => u64::MAX,
        };
        let (told, _) = draws(tally, rng, n, z, model::seed_of(i, raw), limit, z as usize);
        if n < 1 << 32 {
            let thrown = raw < least && limit == 1;
            assert_eq!(told, if thrown { (19, i) } else { (0, 0) }, "the independent draws with raw number {raw} for draw {i} of {n}");
        }
    }
}

/// One list by one g: with just the output needed and one byte less, and with some more bytes of both.
fn fitted(tally: &mut Tally, rng: &mut Random, scenarios: &[u8], m: usize, h: usize, g: u64) {
    let list: Vec<&[u8]> = (0..m).map(|k| &scenarios[k * h..(k + 1) * h]).collect();
    let need = model::sheet_of(&list, h, g).0.len();
    assert!(need <= m * (7 + 17 * h), "a sheet of {need} bytes: more than the header says are enough");
    sheet(tally, rng, (scenarios, m as u64, h as u64, g, need));
    if need > 0 {
        sheet(tally, rng, (scenarios, m as u64, h as u64, g, need - 1));
    }
    let more: Vec<u8> = scenarios.iter().copied().chain((0..rng.below(2 * h as u64 + 2)).map(|_| rng.word() as u8)).collect();
    let room = need + rng.from_to(1, 40) as usize;
    sheet(tally, rng, (&more, m as u64, h as u64, g, room));
}

/// The spacings to try: every one up to two more than the horizon, and some great ones.
fn spacings(h: usize) -> impl Iterator<Item = u64> {
    (1..=h as u64 + 2).chain([1000, 1001, 1 << 32, 1 << 63, u64::MAX])
}

/// Every list of up to four scenarios of up to three events 0 and 1, and of up to three of four.
fn every_sheet(tally: &mut Tally, rng: &mut Random) {
    for (m, h) in (0..=4).flat_map(|h| (0..=if h == 4 { 3 } else { 4 }).map(move |m| (m, h))) {
        for code in 0..1u64 << (m * h) {
            let list: Vec<u8> = (0..m * h).map(|k| (code >> k & 1) as u8).collect();
            spacings(h).for_each(|g| fitted(tally, rng, &list, m, h, g));
            if m * h > 0 {
                sheet(tally, rng, (&list[1..], m as u64, h as u64, 1, 400));
            }
        }
    }
}

/// m scenarios of h events below `most`, each of which shares a start with the one before it: nothing, all, up to a depth of g or one less or more, or any.
/// From there on half of them go on as the one before, but for one event.
fn alike(rng: &mut Random, m: usize, h: usize, g: u64, most: u64) -> Vec<u8> {
    let mut all: Vec<u8> = vec![];
    let mut last: Vec<u8> = (0..h).map(|_| rng.below(most) as u8).collect();
    for _ in 0..m {
        all.extend(&last);
        let depth = g * rng.below(h as u64 / g + 1);
        let at = match rng.below(8) {
            0 => 0,
            1 => h as u64,
            2 | 3 => depth,
            4 => depth.saturating_sub(1),
            5 => depth + 1,
            _ => rng.below(h as u64 + 1),
        };
        let (go_on, start) = (rng.chance(1, 2), at as usize);
        for k in start..h {
            if k == start {
                last[k] = ((last[k] as u64 + rng.from_to(1, most - 1)) % most) as u8;
            } else if !go_on {
                last[k] = rng.below(most) as u8;
            }
        }
    }
    all
}

/// Lists of scenarios that share starts, and of unrelated ones; events and slots of every number of digits; the longest scenarios, and many of them.
fn lists(tally: &mut Tally, rng: &mut Random) {
    for _ in 0..500 {
        let (m, h, most) = (rng.below(12) as usize, rng.from_to(1, 30) as usize, *rng.pick(&[2, 10, 16, 101, 256]));
        let aim = rng.from_to(1, h as u64);
        let list = if rng.chance(1, 6) { (0..m * h).map(|_| rng.below(most) as u8).collect() } else { alike(rng, m, h, aim, most) };
        spacings(h).for_each(|g| fitted(tally, rng, &list, m, h, g));
    }
    let bytes: Vec<u8> = (0..=255).chain((0..=255).rev()).chain((0..=255).rev()).collect();
    for g in [1, 2, 9, 10, 11, 99, 100, 101, 255, 256, 257] {
        fitted(tally, rng, &bytes, 3, 256, g);
    }
    let wholes = [1, 2, 3, 9, 10, 11, 99, 100, 101, 333, 499, 500, 501, 998, 999, 1000, 1001, 1002];
    for g in wholes {
        let aim = alike(rng, 4, 1000, g, 256);
        fitted(tally, rng, &aim, 4, 1000, g);
    }
    for share in [0, 1, 8, 9, 10, 11, 98, 99, 100, 101, 499, 500, 501, 997, 998, 999, 1000] {
        let first: Vec<u8> = (0..1000).map(|_| rng.word() as u8).collect();
        let mut list = first.repeat(2);
        list[1000 + share..].iter_mut().for_each(|e| *e = !*e);
        wholes.into_iter().for_each(|g| fitted(tally, rng, &list, 2, 1000, g));
    }
    fitted(tally, rng, &[255; 1000], 1, 1000, 1);
    let again = alike(rng, 1, 1000, 1, 256).repeat(8);
    [1, 10, 1000].into_iter().for_each(|g| fitted(tally, rng, &again, 8, 1000, g));
    let list = alike(rng, 2, 1000, 100, 16);
    (1..=1002).for_each(|g| fitted(tally, rng, &list, 2, 1000, g));
    for (m, h) in [(70_000, 0), (70_000, 2), (1_000, 30), (300, 100)] {
        let list = alike(rng, m, h, 5, 4);
        [1, 2, 3, 7, 31].into_iter().for_each(|g| fitted(tally, rng, &list, m, h, g));
    }
}

/// Lists that end where nothing may be read: no byte after the scenarios is looked at, also where the last one is as the one before.
fn fenced_sheets(tally: &mut Tally, rng: &mut Random) {
    let mut fence = Fence::of(4);
    for k in 0..2_000 {
        let (m, h) = if k % 10 == 0 { (rng.below(15), 1000) } else { (rng.below(9), rng.below(20)) };
        let g = rng.from_to(1, h + 2);
        let mut list = alike(rng, m as usize, h as usize, g, 3);
        if m > 1 && rng.chance(1, 2) {
            list.copy_within(((m - 2) * h) as usize..((m - 1) * h) as usize, ((m - 1) * h) as usize);
        }
        let short = list.len() - rng.below(2).min(list.len() as u64) as usize;
        let mut out = vec![1; m as usize * (7 + 17 * h as usize)];
        let want = model::sheet(&list[..short], m, h, g, &out);
        let told = calls::sheet(fence.hold(&list[..short]), m, h, g, &mut out);
        let wrong = told_differs(told, want.number, want.words).or((out != want.out).then(|| "another output".into()));
        tally.note("fenced sheet", want.number, wrong, || format!("m {m}, h {h}, g {g}, {list:?}"));
    }
}

/// Sheets of any m, h and g, with scenarios and output of any length; some m are so great that m × h is little more than 2^64.
fn any_sheets(tally: &mut Tally, rng: &mut Random, rounds: u64) {
    for _ in 0..rounds {
        let h = match rng.below(60) {
            0 => *rng.pick(&[1000, 999]),
            1..=5 => *rng.pick(&[1001, 1002, 65536, 1 << 32, 1 << 63, u64::MAX]),
            6..=12 => rng.from_to(9, 40),
            _ => rng.below(9),
        };
        let g = match rng.below(12) {
            0 => 0,
            1 => *rng.pick(&[1000, 1001, 1 << 16, 1 << 32, 1 << 63, u64::MAX]),
            _ => rng.from_to(1, h.min(1000) + 2),
        };
        let m = match rng.below(12) {
            0 => *rng.pick(&[u64::MAX, 1 << 63, 1 << 62, 1 << 61, 1 << 32, 1 << 16]),
            1 if h > 1 => (((1u128 << 64) + rng.below(50) as u128) / h as u128) as u64,
            2 => rng.below(60),
            _ => rng.below(6),
        };
        let length = h.min(1001) as usize;
        let few = m.min(if length > 40 { 4 } else { 60 }) as usize;
        let most = *rng.pick(&[2, 10, 256]);
        let list = alike(rng, few, length, g.clamp(1, 1000), most);
        let need = if g == 0 { 7 * few } else { model::sheet_of(&list.chunks(length.max(1)).collect::<Vec<_>>(), length, g).0.len() };
        let (lent, out) = (about(rng, list.len()), about(rng, need.max(7 * few)));
        let list: Vec<u8> = (0..lent).map(|k| list.get(k).copied().unwrap_or_else(|| rng.word() as u8)).collect();
        sheet(tally, rng, (&list, m, h, g, out));
    }
}

/// The scenarios of a rig, at most so many, in order and shuffled from a seed, as the library lists them: their sheet by every spacing, or by one in so many.
fn listed_sheets(tally: &mut Tally, rng: &mut Random, t: &[u8], h: u64, most: u64, every: usize) {
    let mut cells = vec![0; model::all_rows(h as usize, states(&model::read(t)))];
    let told = calls::count(t, h, &mut cells);
    if told.number != 0 {
        return;
    }
    let (n, m) = (told.words[0], told.words[0].min(most));
    let mut draws = vec![0; m as usize];
    let (mut scratch, mut shuffled) = (vec![0; 2 * m as usize], vec![0; m as usize]);
    assert_eq!(calls::draws(n, m, rng.word(), 255, &mut draws).number, 0);
    assert_eq!(calls::shuffle(n, &draws, &mut scratch, &mut shuffled).number, 0);
    for list in [(0..m).collect(), shuffled] {
        let mut out = vec![0; (m * h) as usize];
        assert_eq!(calls::scenarios(t, h, &list, &mut cells, &mut out).number, 0);
        for g in spacings(h as usize).skip(rng.below(every as u64) as usize).step_by(every) {
            fitted(tally, rng, &out, m as usize, h as usize, g);
        }
    }
}

/// Sheets of real lists: those of the example rigs, of random ones, and of rigs with long scenarios.
fn rig_sheets(tally: &mut Tally, rng: &mut Random) {
    for ask in [
        include_str!("../../examples/closing.ask"),
        include_str!("../../examples/feeder.ask"),
        include_str!("../../examples/last_bus.ask"),
        include_str!("../../examples/load_follows.ask"),
        include_str!("../../examples/one_post.ask"),
        include_str!("../../examples/plug_out_first.ask"),
        include_str!("../../examples/service_day.ask"),
        include_str!("../../examples/service_day_gap.ask"),
        include_str!("../../examples/two_posts.ask"),
    ] {
        let (line, rig) = ask.split_once('\n').unwrap();
        let h = line.strip_prefix("ask\t").unwrap().parse().unwrap();
        listed_sheets(tally, rng, rig.as_bytes(), h, 400, 1);
    }
    for _ in 0..1_500 {
        let (t, h) = (text(&Shape::small(rng, 4, 24), rng), rng.below(14));
        listed_sheets(tally, rng, &t, h, 12, 1);
    }
    for t in [slow_growth(6, &[]), slow_growth(2, &[31, 16]), chain(2, 32, 2, End::Aside)] {
        listed_sheets(tally, rng, &t, 60, 200, 7);
        listed_sheets(tally, rng, &t, 1000, 6, 300);
    }
}

/// A rig whose N at h 16 is 16^16 − 16 + last: sixteen events a step, but the very last step along the last events has only `last`.
fn at_limit(last: u64) -> String {
    let mut t = "rig\t16\nmon\t17\n".to_string();
    for e in 0..16 {
        t += &format!("go\t16\t{e}\t16\n");
        for s in 0..16 {
            if s < 15 || e < last {
                t += &format!("go\t{s}\t{e}\t{}\n", if e == 15 && s < 15 { s + 1 } else { 16 });
            }
        }
    }
    t
}

/// Rigs whose N is just below, at and above the limit of refusal 10. All their scenarios end in one state; with a monitor whose state is the latest event,
/// about as many end in each of sixteen.
fn limits(tally: &mut Tally, rng: &mut Random) {
    let latest: String = (0..16).flat_map(|s| (0..16).map(move |e| format!("go\t{s}\t{e}\t{e}\n"))).collect();
    for last in [13u64, 14, 15, 16] {
        let t = at_limit(last);
        let t = t.as_bytes();
        let want = count(tally, rng, t, 16, 17 * 17);
        let n = (1u128 << 64) - 16 + last as u128;
        let (number, word) = if n < u64::MAX as u128 { (0, n as u64) } else { (10, 0) };
        assert_eq!((want.number, want.words[0]), (number, word), "the independent count at the limit");
        let scattered = [t, b"mon\t16\n", latest.as_bytes()].concat();
        let want = count(tally, &mut rng.clone(), &scattered, 16, 17 * 17 * 16);
        assert_eq!((want.number, want.words[0]), (number, word), "the independent count at the limit, in sixteen states");
        for i in [0, 1 << 63, u64::MAX - 4, u64::MAX - 3, u64::MAX - 2, u64::MAX - 1, u64::MAX] {
            let want = scenarios(tally, rng, t, 16, &[i, 5], 17 * 17, 32);
            scenarios_small(tally, rng, t, 16, &[i, 5], 17 * 17, 32);
            let sequence = if want.number == 0 { &want.out[..16] } else { &[15; 16] };
            index(tally, rng, t, sequence, 17 * 17);
        }
    }
}

/// The largest rigs, the longest horizon, the longest texts.
fn large(tally: &mut Tally, rng: &mut Random) {
    let shapes = [
        (vec![32, 32], 100, 0, 0),
        (vec![32, 32], 100, 100, 0),
        (vec![32, 32], 20, 0, 0),
        (vec![32, 32], 20, 30, 0),
        (vec![32, 32], 0, 0, 100),
        (vec![32, 32], 90, 30, 50),
        (vec![4, 8, 4, 8], 60, 0, 0),
        (vec![4, 8, 4, 8], 30, 70, 0),
        (vec![4, 8, 4, 8], 0, 0, 100),
        (vec![2, 2, 16, 16], 90, 0, 0),
        (vec![2, 2, 16, 16], 90, 30, 50),
        (vec![32, 16, 2], 50, 0, 0),
        (vec![32, 16, 2], 5, 50, 0),
        (vec![32, 16, 2], 0, 0, 100),
    ];
    let mut rigs =
        shapes.map(|(monitors, density, marks, rules)| text(&Shape { events: 16, monitors, density, marks, rules }, rng)).to_vec();
    let marked: [(&[u64], Chosen); 6] = [
        (&[16, 16, 4], Rule::random_bal),
        (&[31, 11, 3], Rule::random_bal),
        (&[1, 31, 31], Rule::random_bal),
        (&[32, 32], Rule::random_day),
        (&[16, 16, 4], Rule::random_day),
        (&[2, 32, 4, 4], Rule::random_day),
    ];
    for (sizes, chosen) in marked {
        let rules: Vec<Rule> = sizes.iter().map(|&s| chosen(s, 16, rng)).collect();
        rigs.push(ruled(&rules, &(0..16).collect::<Vec<_>>()));
    }
    for t in rigs {
        let h = rng.below(40);
        count(tally, rng, &t, h, (h as usize + 1) * 1024 + 5);
        let counted = count(tally, rng, &t, 12, 13 * 1024);
        let n = counted.words[0].max(1);
        let list: Vec<u64> = (0..50).map(|_| rng.below(n)).collect();
        let listed = scenarios(tally, rng, &t, 12, &list, 13 * 1024, 50 * 12);
        scenarios_small(tally, rng, &t, 12, &list, 16 * 1024, 50 * 12);
        index(tally, rng, &t, &listed.out[..12], 13 * 1024);
        as_moves(tally, rng, &t, 12);
    }
    for (marks, rules) in [(0, 0), (50, 0), (50, 50), (0, 100)] {
        let t = text(&Shape { events: 3, monitors: vec![4, 3, 2], density: 70, marks, rules }, rng);
        count(tally, rng, &t, 1000, 1001 * 24);
    }
    let path: String = (0..31).map(|s| format!("go\t{s}\t0\t{}\n", s + 1)).collect();
    let still: String = (0..32).map(|s| format!("go\t{s}\t0\t{s}\n")).collect();
    for t in [
        format!("rig\t1\nmon\t32\n{path}"),
        format!("rig\t1\nmon\t32\n{path}go\t31\t0\t31\n"),
        format!("rig\t1\nmon\t32\n{still}mon\t32\n{path}"),
        format!("rig\t1\nmon\t32\n{path}stop\t31\n"),
        format!("rig\t1\nmon\t32\n{still}stop\t0\nmon\t32\n{path}stop\t31\n"),
    ] {
        for h in [0, 1, 31, 32, 1000] {
            let cells = (h as usize + 1) * 1024;
            count(tally, rng, t.as_bytes(), h, cells);
            index(tally, rng, t.as_bytes(), &vec![0; h as usize], cells);
        }
    }
    let one = texts::ONE.as_bytes();
    let repeated: Vec<u64> = vec![0; 2000];
    scenarios(tally, rng, one, 1000, &repeated[..20], 1001, 20_000);
    scenarios(tally, rng, one, 0, &repeated, 1, 0);
    scenarios(tally, rng, one, 1001, &repeated, 2000, 0);
    scenarios_small(tally, rng, one, 1000, &repeated[..20], 78, 20_000);
    scenarios_small(tally, rng, one, 0, &repeated, 16, 0);
    scenarios_small(tally, rng, one, 1001, &repeated, 2000, 0);
    for over in [65_530usize, 65_535, 65_536, 70_000] {
        for fill in [b'\n', b'0', b'\t', b'g'] {
            let mut t = texts::A.as_bytes().to_vec();
            t.resize(over, fill);
            count(tally, rng, &t, 2, 6);
            scenarios(tally, rng, &t, 2, &[0], 6, 2);
            scenarios_small(tally, rng, &t, 2, &[0], 32, 2);
            *t.last_mut().unwrap() = b'\n';
            index(tally, rng, &t, &[0, 0], 6);
        }
    }
}

/// Rigs of one to 1,024 joint states, of every kind of monitor, with and without `stop` lines. Many have scenarios at the horizon 1,000, and fewer than
/// 2^64 - 1; others have too many from some horizon on, or none.
fn any_rigs(rng: &mut Random) -> Vec<Vec<u8>> {
    use texts::{A, A_ORDERED, B, B_STOPS, CLASH, DAY, EITHER, F, LAST, ONE, REPLY, SWING};
    let mut rigs = [A, A_ORDERED, B, B_STOPS, CLASH, DAY, EITHER, F, LAST, ONE, REPLY, SWING].map(|t| t.as_bytes().to_vec()).to_vec();
    // event 0 comes at most seven times, at least four steps apart, at some steps of the day, and is followed by event 1
    rigs.push(b"rig\t2\nord\t1\t0\nbal\t-7\t0\namp\t0\t-1\ngap\t0\t4\nreply\t0\t1\t1\t2\nday\t8\nopen\t0\t1\t6\n".to_vec());
    // the counts of the last state, which no scenario reaches, are soon full
    let every: String = (0..16).map(|e| format!("go\t2\t{e}\t2\n")).collect();
    rigs.push(format!("rig\t16\nmon\t3\ngo\t0\t15\t0\ngo\t0\t7\t1\ngo\t1\t15\t1\n{every}").into_bytes());
    rigs.extend([slow_growth(6, &[]), slow_growth(6, &[32]), slow_growth(8, &[32, 4]), slow_growth(2, &[31, 16])]);
    for (density, marks, rules) in [(90, 30, 50), (12, 0, 0), (0, 0, 100)] {
        rigs.push(text(&Shape { events: 16, monitors: vec![32, 32], density, marks, rules }, rng));
    }
    for (density, marks, rules) in [(40, 0, 0), (40, 50, 0), (60, 50, 50), (0, 0, 100)] {
        rigs.push(text(&Shape { events: 3, monitors: vec![5, 4, 3], density, marks, rules }, rng));
    }
    rigs
}

/// So many indices below n, in no order, about every fourth of them one of the earlier.
fn indices(rng: &mut Random, n: u64, many: usize) -> Vec<u64> {
    let mut list: Vec<u64> = vec![];
    for k in 0..many {
        let index = if k > 0 && rng.chance(1, 4) { *rng.pick(&list) } else { rng.below(n) };
        list.push(index);
    }
    list
}

/// The lists of `beside`: how many indices they have, and the place of one that isn't below N.
const LISTS: [(usize, Option<usize>); 16] = [
    (2100, None),
    (1025, None),
    (0, None),
    (1, None),
    (512, None),
    (1023, None),
    (1024, None),
    (2048, None),
    (1, Some(0)),
    (1024, Some(1023)),
    (1025, Some(1024)),
    (1100, Some(0)),
    (1100, Some(1023)),
    (1100, Some(1024)),
    (2100, Some(1500)),
    (2100, Some(2099)),
];

/// The small scenarios call beside the other one, at every horizon up to 70 and at 1,000: the same numbers, places and bytes. Most are lent just the cells
/// needed. At the horizon 1,000 all the lists are tried, else the first two and every third of the others in turn.
fn beside(tally: &mut Tally, rng: &mut Random) {
    for t in any_rigs(rng) {
        let states = model::read(&t).expect("a readable text").joint_states();
        for h in (0..=70).chain([1000]) {
            let need = model::few_rows(h, states);
            let told = calls::count(&t, h as u64, &mut vec![0; model::all_rows(h, states)]);
            let n = if told.number == 0 { told.words[0] } else { 1 };
            for (k, (many, wrong)) in LISTS.into_iter().enumerate() {
                if h == 1000 || k < 2 || (h + k) % 3 == 0 {
                    let mut list = indices(rng, n, many);
                    if let Some(at) = wrong {
                        list[at] = *rng.pick(&[n, n.saturating_add(1), u64::MAX]);
                    }
                    listed(tally, rng, &BESIDE, (&t, h as u64, &list, need, many * h));
                }
            }
            let list = indices(rng, n, 3);
            let (cells, out) = (*rng.pick(&[1, states, 16 * states]), rng.below(40) as usize);
            listed(tally, rng, &BESIDE, (&t, h as u64, &list, need + cells, 3 * h + out));
            listed(tally, rng, &BESIDE, (&t, h as u64, &list, need, (3 * h).saturating_sub(1)));
            scenarios_small(tally, rng, &t, h as u64, &list, need - 1, 3 * h);
        }
    }
}

/// The forward count beside the other one, at every horizon up to 75 and at 1,000: the same numbers, N and passes, in just the cells needed or some more. And
/// by the independent implementation at some of these, with too few cells, and at horizons that are refused.
fn beside_count(tally: &mut Tally, rng: &mut Random) {
    let mut rigs = any_rigs(rng);
    for (first, second, ways) in [(5, 14, 2), (2, 32, 2), (13, 5, 2), (3, 23, 1), (3, 23, 3), (7, 10, 7), (31, 2, 4)] {
        rigs.extend([End::Dead, End::Stops, End::Aside].map(|end| chain(first, second, ways, end)));
    }
    rigs.extend((0..400).map(|_| upward(rng)));
    for t in rigs {
        let states = states(&model::read(&t));
        let mut full = false;
        for h in (0..=75).chain([1000]) {
            let need = model::two_rows(h, states);
            let more = need + *rng.pick(&[1, states, 40 * states]);
            let told = counted(tally, rng, &BESIDE_COUNT, (&t, h as u64, need, any_words)).number;
            counted(tally, rng, &BESIDE_COUNT, (&t, h as u64, more, any_words));
            count_forward(tally, rng, &t, h as u64, need - 1);
            if h == 1000 || rng.chance(1, 20) {
                count_forward(tally, rng, &t, h as u64, need);
            }
            full |= told == 10;
            tally.fewer += (full && told == 0) as u64;
            tally.gone += (full && told == 9) as u64;
        }
        for h in [1001, 1 << 16, 1 << 32, u64::MAX] {
            let cells = rng.below(4 * states as u64) as usize;
            count_forward(tally, rng, &t, h, cells);
        }
    }
}

/// Compares one line of a listing, written to an output of `room` bytes.
fn line(tally: &mut Tally, rng: &mut Random, index: u64, events: &[u8], room: usize) {
    let (events, was) = (bytes(events, rng), noise_bytes(room, rng));
    let (events0, mut now) = (events.clone(), was.clone());
    let written = calls::line(index, events.lent(), now.lend());
    let enough = room >= 21 + 4 * events.lent().len();
    let want = if enough { scenario_line(index, events.lent()) } else { vec![] };
    let mut out = was.lent().to_vec();
    out[..want.len()].copy_from_slice(&want);
    let wrong = (written != want.len())
        .then(|| format!("told {written}, expected {}", want.len()))
        .or(named("output", &now, &was, &out, 0))
        .or(named("events", &events, &events0, events0.lent(), 0));
    tally.short += u64::from(!enough);
    tally.note("line", 0, wrong, || format!("index {index}, events {:?}, {room} bytes", events.lent()));
}

/// Lines of every index below 100,000, of the powers of ten and what stands one below and above each, of indices of every length, many of
/// them with zeros inside, and with any bytes as events.
fn lines(tally: &mut Tally, rng: &mut Random) {
    let powers = (0..20).map(|k| 10u64.pow(k)).flat_map(|p| [p - 1, p, p + 1]);
    for index in (0..100_000).chain(powers).chain([u64::MAX - 1, u64::MAX]) {
        line(tally, rng, index, &[], 21);
    }
    line(tally, rng, 0, &(0..=255).collect::<Vec<u8>>(), 21 + 4 * 256);
    for _ in 0..50_000 {
        let (length, zeros) = (rng.from_to(1, 20) as u32, rng.below(11));
        let index = (0..length).fold(0u64, |n, _| n.wrapping_mul(10).wrapping_add(if rng.chance(zeros, 10) { 0 } else { rng.below(10) }));
        let (h, most) = (*rng.pick(&[0, 1, 3, 30, 1000]), *rng.pick(&[10, 16, 256]));
        let events: Vec<u8> = (0..rng.below(h + 1)).map(|_| rng.below(most) as u8).collect();
        let need = 21 + 4 * events.len();
        let room = about(rng, need);
        line(tally, rng, index, &events, room);
    }
}

fn main() {
    let mut tally = Tally::default();
    let rng = &mut Random::seeded(20_261_115);
    worked(&mut tally, rng);
    for _ in 0..85_000 {
        let most = *rng.pick(&[4, 12, 40]);
        let shape = Shape::small(rng, 4, most);
        let mut t = text(&shape, rng);
        match rng.below(20) {
            0 | 1 => t = other_start(&t, rng),
            2 => t = other_order(&t, rng),
            3 | 4 => t = other_marks(&t, rng),
            5..=7 => t = other_rules(&t, rng),
            8..=11 => t = other_bal(&t, rng),
            12..=15 => t = other_day(&t, rng),
            _ => (),
        }
        calls_on(&mut tally, rng, &t);
    }
    for k in 0..4_000 {
        let any = (0..rng.from_to(1, 5)).map(|_| *rng.pick(&[1, 2, 3, 8, 16, 31, 32, 33])).collect();
        let monitors = if k % 2 == 0 { any } else { vec![rng.from_to(16, 32), rng.from_to(8, 32), rng.from_to(2, 8)] };
        let (marks, rules) = (*rng.pick(&[0, 50]), *rng.pick(&[0, 0, 50, 100]));
        let mut t = text(&Shape { events: rng.from_to(1, 3), monitors, density: 60, marks, rules }, rng);
        match k % 8 {
            0 | 4 => t = other_rules(&t, rng),
            1 | 2 => t = other_bal(&t, rng),
            5 | 6 => t = other_day(&t, rng),
            _ => (),
        }
        calls_on(&mut tally, rng, &t);
    }
    for _ in 0..120_000 {
        let shape = Shape::small(rng, 3, 8);
        let mut t = text(&shape, rng);
        for _ in 0..rng.from_to(1, 3) {
            t = damage(&t, rng);
        }
        calls_on(&mut tally, rng, &t);
    }
    for _ in 0..5_000 {
        let shape = Shape::small(rng, 3, 24);
        let t = text(&shape, rng);
        let h = rng.below(if shape.events == 3 { 6 } else { 8 }) as usize;
        demand(&mut tally, rng, &t, h);
    }
    for _ in 0..2_000 {
        let monitors = vec![rng.from_to(2, 8), rng.from_to(1, 2)];
        let t = text(&Shape { events: rng.from_to(2, 3), monitors, density: 50, marks: 60, rules: *rng.pick(&[0, 50]) }, rng);
        let served: Vec<bool> = (0..5).map(|h| demand(&mut tally, rng, &t, h)).collect();
        assert!(served.is_sorted_by(|a, b| a >= b), "a sequence that belongs begins with a shorter one that does");
        tally.ending += (served[0] && !served[4]) as u64;
    }
    for _ in 0..20_000 {
        let t = text(&Shape::small(rng, 4, 40), rng);
        let h = rng.below(20);
        renumbered(&mut tally, rng, &t, h);
        reordered(&mut tally, rng, &t, h);
        unmarked(&mut tally, &t, h);
        as_moves(&mut tally, rng, &t, h);
    }
    sentences(&mut tally, rng);
    bands(&mut tally, rng);
    hours(&mut tally, rng);
    long_sequences(&mut tally, rng);
    let valid = all_shuffles(&mut tally, rng);
    shuffles(&mut tally, rng, 200_000);
    samples(&mut tally, rng, 20_000);
    limits(&mut tally, rng);
    large(&mut tally, rng);
    worked_small(&mut tally, rng);
    beside(&mut tally, rng);
    lines(&mut tally, rng);
    worked_forward(&mut tally, rng);
    beside_count(&mut tally, rng);
    worked_draws(&mut tally, rng);
    published(&mut tally, rng);
    small_draws(&mut tally, rng);
    seeded(&mut tally, rng, 150_000);
    edges(&mut tally, rng, 100_000);
    worked_sheets(&mut tally, rng);
    every_sheet(&mut tally, rng);
    lists(&mut tally, rng);
    fenced_sheets(&mut tally, rng);
    any_sheets(&mut tally, rng, 60_000);
    rig_sheets(&mut tally, rng);
    for (call, numbers) in [
        ("count", &[0u64, 1, 2, 3, 4, 5, 6, 7, 8, 9, 10, 16, 17, 18][..]),
        ("count_forward", &[0, 1, 2, 3, 4, 5, 6, 7, 8, 9, 10, 16, 17, 18]),
        ("beside count", &[0, 9, 10]),
        ("scenarios", &[0, 1, 2, 3, 4, 5, 6, 7, 8, 9, 10, 11, 12, 16, 17, 18]),
        ("scenarios_small", &[0, 1, 2, 3, 4, 5, 6, 7, 8, 9, 10, 11, 12, 16, 17, 18]),
        ("beside all rows", &[0, 9, 10, 11, 12]),
        ("index", &[0, 1, 2, 3, 4, 5, 6, 7, 8, 9, 10, 13, 14, 16, 17, 18]),
        ("shuffle", &[0, 8, 12, 15]),
        ("draws", &[0, 12, 15, 19]),
        ("published", &[0]),
        ("sheet", &[0, 7, 12, 20]),
        ("on the bench", &[0]),
        ("fenced sheet", &[0, 12]),
        ("line", &[0]),
        ("some marked: count", &[0, 9]),
        ("some marked: listed", &[0]),
        ("all marked: count", &[0, 9]),
        ("all marked: listed", &[0]),
        ("as moves: count", &[0, 9]),
        ("as moves: scenarios", &[0, 9, 11]),
        ("as moves: index", &[0, 9, 14]),
        ("sentences: count", &[0, 9]),
        ("sentences: index", &[0, 9, 14]),
    ] {
        for &number in numbers {
            assert!(tally.answers.contains_key(&(call, number)), "no {call} call is expected to answer {number}");
        }
    }
    assert!(tally.begun > 1_000, "few rigs begin in another state than 0");
    assert!(tally.ordered > 1_000, "few rigs have another order of events than lower first");
    for (word, numbers) in [
        ("stop", &[2, 3, 4, 5][..]),
        ("gap", &[2, 3, 5, 6]),
        ("reply", &[2, 3, 5, 6, 17]),
        ("bal", &[2, 3, 5, 6]),
        ("amp", &[2, 3, 4, 5]),
        ("day", &[2, 3, 5, 6]),
        ("open", &[2, 3, 5, 18]),
    ] {
        for &number in numbers {
            let times = tally.lines.get(&(word, number)).copied().unwrap_or(0);
            assert!(times > if word == "stop" { 1_000 } else { 100 }, "few texts are refused {number} for a `{word}` line: {times}");
        }
    }
    for (word, own) in PARTS {
        for latest in KINDS.into_iter().chain(["none"]).filter(|latest| *latest != own) {
            let times = tally.others.get(&(word, latest)).copied().unwrap_or(0);
            assert!(times > 100, "few texts are refused for a `{word}` line after {latest}: {times}");
        }
    }
    for (word, causes) in [
        ("bal", &["sign", "fields", "lo", "hi", "fifth"][..]),
        ("amp", &["sign", "fields", "e", "d", "again, 0", "again, the same", "again, another"]),
        ("day", &["sign", "fields", "T", "fifth"]),
        ("open", &["sign", "fields", "e", "e, a not below b", "b", "b, a not below b"]),
        ("open", &["a equals b", "a over b", "a over b, past the day"]),
    ] {
        for cause in causes {
            let times = tally.causes.get(&(word, *cause)).copied().unwrap_or(0);
            assert!(times > 100, "few texts are refused for a `{word}` line, {cause}: {times}");
        }
    }
    for kinds in KINDS.into_iter().flat_map(|a| KINDS.into_iter().filter(move |b| a < *b).map(move |b| [a, b])) {
        let beside = tally.mixed.iter().filter(|(mixed, _)| kinds.iter().all(|kind| mixed.contains(kind)));
        let times: u64 = beside.map(|(_, times)| times).sum();
        assert!(times > 300, "few rigs with {kinds:?} are compared with the sentences: {times}");
    }
    let four = tally.mixed.iter().filter(|(kinds, times)| kinds.len() == 4 && **times > 10).count();
    assert_eq!(four, 5, "the sets of four kinds of which more than a few rigs are compared with the sentences: {:?}", tally.mixed);
    for (kind, times) in &tally.kinds {
        assert!(*times > 100, "few rigs have {kind}: {times}");
    }
    assert!(tally.dropped > 1_000, "few sequences are admitted by the sentences and can't be carried on: {}", tally.dropped);
    assert!(tally.admitted > 2_000, "few long sequences are judged by the sentences");
    assert!(tally.stoppable > 1_000, "few rigs have a stoppable state");
    assert!(tally.vain > 500, "few rigs have a live state without any scenario of the horizon");
    assert!(tally.over > 1_000, "few rigs have a live start and no scenario of the horizon");
    assert!(tally.ending > 300, "few rigs are served at one horizon and have no scenario of the next");
    assert!(tally.late > 500, "few sequences are refused at an event before which no scenario goes on already");
    assert!(tally.short > 1_000, "few lines have too short an output");
    assert!(tally.fewer > 300, "few horizons have fewer scenarios, where a shorter one has too many: {}", tally.fewer);
    assert!(tally.gone > 1_000, "few horizons have no scenario, where a shorter one has too many: {}", tally.gone);
    assert!(tally.thrown > 1_000, "few Draws calls are served with raw numbers thrown away: {}", tally.thrown);
    for place in 0..=8 {
        let times = tally.ended.get(&place).copied().unwrap_or(0);
        assert!(times > 500, "few Draws calls are refused 19 at place {place}: {times}");
    }
    for cause in ["fewer bytes", "shorter output"] {
        let times = tally.lacking.get(cause).copied().unwrap_or(0);
        assert!(times > 1_000, "few Sheet calls are refused 12 for {cause}: {times}");
    }
    for start in ["none", "all, a depth", "all", "a depth", "one less", "one more", "between"] {
        let times = tally.starts.get(start).copied().unwrap_or(0);
        assert!(times > 1_000, "few scenarios share a start with the one before, {start}: {times}");
    }
    for (digits, least) in [(1, 1_000), (2, 1_000), (3, 100), (4, 5)] {
        let times = tally.slots.get(&digits).copied().unwrap_or(0);
        assert!(times > least, "few loads of slots of {digits} digits: {times}");
    }
    for ((call, number), (times, wrong)) in &tally.answers {
        let answer = if *number == 0 { "served".into() } else { format!("refusal {number}") };
        println!("{call:20} {answer:12} {times:8} {wrong:8}");
    }
    println!("{} of the served rigs begin in another state than 0, {} have another order of events", tally.begun, tally.ordered);
    println!("{} have a stoppable state, {} a live state without any scenario of the horizon", tally.stoppable, tally.vain);
    println!(
        "{} rigs have a live start and no scenario of the horizon, {} are served at one and not at the next",
        tally.over, tally.ending
    );
    println!("{} sequences are refused at an event before which no scenario goes on already", tally.late);
    println!("served rigs by their monitors: {:?}", tally.kinds);
    println!("{} sequences are admitted by the sentences and can't be carried on", tally.dropped);
    println!("rigs with scenarios that were compared with the sentences, by the kinds of their monitors: {:?}", tally.mixed);
    println!("{} rigs of long sequences were served that were judged by the sentences", tally.admitted);
    println!("texts refused, by the line's word and the number: {:?}", tally.lines);
    println!("texts refused 5, by the line's word and the latest monitor's: {:?}", tally.others);
    println!("texts refused for a `bal`, `amp`, `day` or `open` line, by its cause: {:?}", tally.causes);
    println!("{valid} lists of valid draws, all that there are for up to 6 numbers, put out every sample once");
    println!("{} of the lines have too short an output", tally.short);
    println!("{} horizons have fewer scenarios and {} none, where a shorter one has too many", tally.fewer, tally.gone);
    println!("{} Draws calls are served with raw numbers thrown away", tally.thrown);
    println!("Draws calls refused 19, by place, from 8 on as 8: {:?}", tally.ended);
    println!("Sheet calls refused 12, by the cause: {:?}", tally.lacking);
    println!("scenarios of sheets by the start shared with the one before, to the depths of g: {:?}", tally.starts);
    println!("loads by the digits of their slot: {:?}", tally.slots);
    println!("{} comparisons, {} differences", tally.comparisons, tally.differences);
    if tally.differences > 0 {
        std::process::exit(1);
    }
}
