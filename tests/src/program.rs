//! Compares every byte that the program `scenarios` prints with what the independent implementation expects. Its argument is the program.
//! The last line is the number of inputs and of differences; the exit status is 0 only without any.
use outside::listing::{listing, Outcome};
use outside::random::Random;
use outside::texts::{
    damage, endless, monitors, other_bal, other_day, other_marks, other_order, other_rules, other_start, text, wrong_signs,
};
use outside::texts::{Shape, A, A_FROM_1, A_GAP, A_ORDERED, B, B_STOPS, CLASH, DAY, F, LAST, ONE, REPLY, SWING};
use std::collections::{BTreeMap, BTreeSet};
use std::io::Write;
use std::process::{ChildStdin, Command, Stdio};
use std::{thread, time};

struct Tally {
    program: String,
    inputs: u64,
    differences: u64,
    /// By outcome expected: how many inputs, and how many differed.
    outcomes: BTreeMap<Outcome, (u64, u64)>,
    /// The horizons that were served.
    served: BTreeSet<u64>,
    /// By word: how many inputs with such a line were served.
    lines: BTreeMap<&'static str, u64>,
}

/// Lends an input to the program in pieces, with a rest between them. A program that has read enough may close its end.
fn lend(mut to: ChildStdin, input: &[u8], piece: usize) {
    for part in input.chunks(piece) {
        if to.write_all(part).is_err() {
            return;
        }
        if piece < input.len() {
            thread::sleep(time::Duration::from_millis(1));
        }
    }
}

impl Tally {
    /// What the program prints, or the signal that ended it. 01 names no exit status, so none is asked for.
    fn printed(&self, input: &[u8], piece: usize) -> Result<Vec<u8>, String> {
        let mut child = Command::new(&self.program).stdin(Stdio::piped()).stdout(Stdio::piped()).spawn().expect("the program starts");
        let to = child.stdin.take().unwrap();
        let output = thread::scope(|s| {
            s.spawn(|| lend(to, input, piece));
            child.wait_with_output().expect("the program's output")
        });
        match output.status.code() {
            Some(_) => Ok(output.stdout),
            None => Err(format!("ended by {}", output.status)),
        }
    }

    /// Compares one listing, and gives back the one expected.
    fn compare_in(&mut self, input: &[u8], piece: usize) -> Vec<u8> {
        let want = listing(input);
        let wrong = match self.printed(input, piece) {
            Ok(printed) => differs(&printed, &want.printed),
            Err(ended) => Some(ended),
        };
        self.inputs += 1;
        let seen = self.outcomes.entry(want.outcome).or_default();
        seen.0 += 1;
        if matches!(want.outcome, Outcome::Fewer | Outcome::Thousand | Outcome::More) {
            self.served.insert(want.horizon);
            for word in ["stop", "gap", "reply", "bal", "amp", "day", "open"] {
                let line = format!("\n{word}\t");
                *self.lines.entry(word).or_default() += u64::from(input.windows(line.len()).any(|w| w == line.as_bytes()));
            }
        }
        if let Some(what) = wrong {
            seen.1 += 1;
            self.differences += 1;
            if self.differences <= 10 {
                println!("{what}\n  {} bytes: {}", input.len(), shown(input));
            }
        }
        want.printed
    }

    fn compare(&mut self, input: &[u8]) -> Vec<u8> {
        self.compare_in(input, usize::MAX)
    }
}

fn shown(bytes: &[u8]) -> String {
    format!("{:?}", String::from_utf8_lossy(&bytes[..bytes.len().min(300)]))
}

fn differs(printed: &[u8], want: &[u8]) -> Option<String> {
    let at = (0..printed.len().max(want.len())).find(|&k| printed.get(k) != want.get(k))?;
    let from = |b: &[u8]| shown(&b[at.min(b.len())..b.len().min(at + 40)]);
    Some(format!("from byte {at} on printed {}, expected {}", from(printed), from(want)))
}

/// An `ask` line and a rig text.
fn ask(h: u64, t: &[u8]) -> Vec<u8> {
    [format!("ask\t{h}\n").as_bytes(), t].concat()
}

/// The paper's listing, whole as it is written there, and an example for each case of each row of its table.
fn worked(tally: &mut Tally) {
    let whole = "count\t5\t1\n0\t0\t0\t0\n1\t0\t0\t1\n2\t0\t1\t0\n3\t1\t0\t0\n4\t1\t0\t1\n";
    assert_eq!(tally.compare(&ask(3, A.as_bytes())), whole.as_bytes(), "the independent listing of the paper's example");
    assert_eq!(tally.compare(&ask(3, A_GAP.as_bytes())), whole.as_bytes(), "the independent listing of the paper's example as a `gap`");
    let whole = "count\t3\t1\n0\t0\t0\t0\n1\t0\t0\t1\n2\t0\t1\t0\n";
    assert_eq!(tally.compare(&ask(3, A_FROM_1.as_bytes())), whole.as_bytes(), "the independent listing of A from its state 1");
    let whole = "count\t5\t1\n0\t1\t0\t1\n1\t1\t0\t0\n2\t0\t1\t0\n3\t0\t0\t1\n4\t0\t0\t0\n";
    assert_eq!(tally.compare(&ask(3, A_ORDERED.as_bytes())), whole.as_bytes(), "the independent listing of A with another order");
    let whole = "count\t2\t1\n0\t0\t0\t0\n1\t0\t0\t1\n";
    assert_eq!(tally.compare(&ask(3, B_STOPS.as_bytes())), whole.as_bytes(), "the independent listing of B with marks");
    for (h, whole) in [(0, "count\t1\t1\n0\n"), (1, "count\t1\t1\n0\t0\n"), (2, "no\t9\t0\n")] {
        assert_eq!(tally.compare(&ask(h, LAST.as_bytes())), whole.as_bytes(), "the independent listing of one event and no more");
    }
    let whole = "count\t8\t1\n0\t0\t1\n1\t0\t2\n2\t1\t0\n3\t1\t1\n4\t1\t2\n5\t2\t0\n6\t2\t1\n7\t2\t2\n";
    assert_eq!(tally.compare(&ask(2, REPLY.as_bytes())), whole.as_bytes(), "the independent listing of a `reply`");
    for (h, whole) in [(1, "count\t2\t2\n0\t0\n1\t1\n"), (2, "count\t1\t2\n0\t0\t1\n"), (3, "no\t9\t0\n")] {
        assert_eq!(tally.compare(&ask(h, CLASH.as_bytes())), whole.as_bytes(), "the independent listing of a `gap` beside a `reply`");
    }
    for (h, whole) in [(1, "count\t1\t1\n0\t0\n"), (2, "no\t9\t0\n")] {
        let alone = tally.compare(&ask(h, b"rig\t1\ngap\t0\t2\n"));
        assert_eq!(alone, whole.as_bytes(), "the independent listing of a `gap` on the only event");
    }
    for (h, whole) in [(0, "count\t1\t1\n0\n"), (2, "count\t2\t1\n0\t0\t1\n1\t1\t0\n")] {
        assert_eq!(tally.compare(&ask(h, SWING.as_bytes())), whole.as_bytes(), "the independent listing of a `bal`");
    }
    let whole = "count\t4\t1\n0\t0\t1\t0\n1\t0\t1\t1\n2\t1\t0\t0\n3\t1\t0\t1\n";
    assert_eq!(tally.compare(&ask(3, SWING.as_bytes())), whole.as_bytes(), "the independent listing of a `bal`");
    let whole = "count\t4\t1\n0\t0\t0\t0\n1\t0\t0\t1\n2\t1\t0\t0\n3\t1\t0\t1\n";
    assert_eq!(tally.compare(&ask(3, DAY.as_bytes())), whole.as_bytes(), "the independent listing of a `day`");
    for (h, whole) in [(0, "count\t1\t1\n0\n"), (1, "count\t1\t1\n0\t0\n"), (2, "no\t9\t0\n")] {
        let once = tally.compare(&ask(h, b"rig\t1\nday\t2\nopen\t0\t0\t1\n"));
        assert_eq!(once, whole.as_bytes(), "the independent listing of an event at the first of two steps");
    }
    let (feeder, table) = (include_bytes!("../../examples/feeder.ask"), include_bytes!("../../examples/feeder_table.ask"));
    assert_eq!(tally.compare(feeder), tally.compare(table), "the independent listing of the feeder, by its difference and by its moves");
    let shift = include_str!("../../examples/last_bus.ask").split_once('\n').unwrap().1.as_bytes();
    for (h, first) in [(11, "count\t7\t"), (12, "count\t1\t"), (13, "no\t9\t0\n")] {
        assert!(tally.compare(&ask(h, shift)).starts_with(first.as_bytes()), "the independent listing of the last bus");
        assert_eq!(tally.compare(&ask(h, &endless(shift))), b"no\t9\t0\n", "the independent listing of the last bus without marks");
    }
    let examples: [(&[u8], &[u8]); 3] = [
        (include_bytes!("../../examples/load_follows.ask"), include_bytes!("../../examples/load_follows.first")),
        (include_bytes!("../../examples/service_day.ask"), include_bytes!("../../examples/service_day.first")),
        (include_bytes!("../../examples/service_day_gap.ask"), include_bytes!("../../examples/service_day_gap.first")),
    ];
    for (input, first) in examples {
        assert!(tally.compare(input).starts_with(first), "the independent listing of an example: {}", shown(input));
    }
    let long = "\n".repeat(65_535);
    let (two, four) = ("rig\t1\nmon\t32\nmon\t32\n", "rig\t1\nmon\t1\nmon\t1\nmon\t1\nmon\t1\n");
    let refused = [
        (0, format!("{long}\n"), "no\t1\t0\n"),
        (0, long, "no\t2\t1\n"),
        (0, "rig\t2\nmon\n".into(), "no\t2\t2\n"),
        (0, "rig\t2\nmon\t2\nnight\t3\n".into(), "no\t2\t3\n"),
        (0, "rig\t02\nmon\t2\n".into(), "no\t2\t1\n"),
        (0, "rig\t2\nmon\t2\ngo\t0\t0\t0".into(), "no\t2\t3\n"),
        (0, "rig\t17\n".into(), "no\t3\t1\n"),
        (0, "rig\t0\n".into(), "no\t3\t1\n"),
        (0, "rig\t1\nmon\t33\n".into(), "no\t3\t2\n"),
        (0, "rig\t1\nmon\t0\n".into(), "no\t3\t2\n"),
        (0, format!("{four}mon\t1\n"), "no\t3\t6\n"),
        (0, "rig\t1\nmon\t2\t2\n".into(), "no\t3\t2\n"),
        (0, "rig\t1\nmon\t2\t1\t0\n".into(), "no\t2\t2\n"),
        (0, "rig\t1\nmon\t2\t01\n".into(), "no\t2\t2\n"),
        (0, "mon\t2\t2\n".into(), "no\t5\t1\n"),
        (0, "rig\t2\nord\t1\n".into(), "no\t2\t2\n"),
        (0, "rig\t2\nord\t2\t2\n".into(), "no\t3\t2\n"),
        (0, "rig\t2\nord\t0\t0\n".into(), "no\t16\t2\n"),
        (0, "rig\t2\nmon\t1\nord\t0\t0\n".into(), "no\t5\t3\n"),
        (0, "ord\n".into(), "no\t5\t1\n"),
        (0, "rig\t1\nord\t0\n".into(), "no\t5\t3\n"),
        (0, "rig\t1\nmon\t2\nstop\n".into(), "no\t2\t3\n"),
        (0, "rig\t1\nmon\t2\nstop\t0\t1\n".into(), "no\t2\t3\n"),
        (0, "rig\t1\nmon\t2\nstop\t01\n".into(), "no\t2\t3\n"),
        (0, "rig\t1\nmon\t2\nstop\t2\n".into(), "no\t3\t3\n"),
        (0, format!("{LAST}stop\t1\n"), "no\t4\t5\n"),
        (0, "rig\t1\nstop\t99999\n".into(), "no\t5\t2\n"),
        (0, "stop\t0\n".into(), "no\t5\t1\n"),
        (0, "rig\t2\ngap\t0\n".into(), "no\t2\t2\n"),
        (0, "rig\t2\ngap\t2\t2\n".into(), "no\t3\t2\n"),
        (0, "rig\t2\ngap\t0\t1\n".into(), "no\t3\t2\n"),
        (0, "rig\t2\ngap\t0\t33\n".into(), "no\t3\t2\n"),
        (0, "rig\t2\ngap\t0\t2\ngo\t99\t0\t0\n".into(), "no\t5\t3\n"),
        (0, "gap\t0\t2\n".into(), "no\t5\t1\n"),
        (0, format!("{two}gap\t0\t2\n"), "no\t6\t4\n"),
        (0, "rig\t2\nreply\t0\t1\t1\n".into(), "no\t2\t2\n"),
        (0, "rig\t2\nreply\t0\t1\t0\t1\n".into(), "no\t3\t2\n"),
        (0, "rig\t2\nreply\t0\t1\t2\t1\n".into(), "no\t3\t2\n"),
        (0, "rig\t2\nreply\t0\t1\t1\t32\n".into(), "no\t3\t2\n"),
        (0, "rig\t2\nreply\t1\t1\t1\t2\n".into(), "no\t17\t2\n"),
        (0, "rig\t2\nreply\t1\t1\t2\t1\n".into(), "no\t3\t2\n"),
        (0, format!("{four}reply\t0\t0\t1\t1\n"), "no\t3\t6\n"),
        (0, format!("{two}reply\t0\t0\t1\t1\n"), "no\t17\t4\n"),
        (0, "rig\t2\nreply\t0\t1\t1\t2\nstop\t0\n".into(), "no\t5\t3\n"),
        (0, "rig\t2\nbal\t0\n".into(), "no\t2\t2\n"),
        (0, "rig\t2\nbal\t-0\t1\n".into(), "no\t2\t2\n"),
        (0, "rig\t2\nbal\t-100000\t1\n".into(), "no\t2\t2\n"),
        (0, "rig\t2\nbal\t-99999\t1\n".into(), "no\t3\t2\n"),
        (0, "rig\t2\nbal\t-16\t1\n".into(), "no\t3\t2\n"),
        (0, "rig\t2\nbal\t1\t1\n".into(), "no\t3\t2\n"),
        (0, "rig\t2\nbal\t-1\t-1\n".into(), "no\t3\t2\n"),
        (0, "rig\t2\nbal\t-1\t16\n".into(), "no\t3\t2\n"),
        (0, "rig\t2\nbal\t-1\t1\ngo\t0\t0\t0\n".into(), "no\t5\t3\n"),
        (0, "rig\t2\nbal\t-1\t1\nstop\t99\n".into(), "no\t5\t3\n"),
        (0, "bal\t-99\t99\n".into(), "no\t5\t1\n"),
        (0, format!("{four}bal\t0\t1\n"), "no\t3\t6\n"),
        (0, format!("{two}bal\t0\t1\n"), "no\t6\t4\n"),
        (0, "rig\t2\nbal\t-1\t1\namp\t-1\t1\n".into(), "no\t2\t3\n"),
        (0, "rig\t2\nbal\t-1\t1\namp\t9\t--1\n".into(), "no\t2\t3\n"),
        (0, "rig\t2\nbal\t-1\t1\namp\t2\t1\n".into(), "no\t3\t3\n"),
        (0, "rig\t2\nbal\t-1\t1\namp\t0\t-16\n".into(), "no\t3\t3\n"),
        (0, "rig\t2\nbal\t-1\t1\namp\t0\t16\n".into(), "no\t3\t3\n"),
        (0, format!("{SWING}amp\t1\t0\n"), "no\t4\t5\n"),
        (0, format!("{A}amp\t99\t99\n"), "no\t5\t6\n"),
        (0, format!("{CLASH}amp\t0\t1\n"), "no\t5\t4\n"),
        (0, "rig\t2\namp\t0\t1\n".into(), "no\t5\t2\n"),
        (0, "rig\t2\nday\n".into(), "no\t2\t2\n"),
        (0, "rig\t2\nday\t-2\n".into(), "no\t2\t2\n"),
        (0, "rig\t2\nday\t1\n".into(), "no\t3\t2\n"),
        (0, "rig\t2\nday\t33\n".into(), "no\t3\t2\n"),
        (0, "rig\t2\nday\t2\ngo\t99\t0\t0\n".into(), "no\t5\t3\n"),
        (0, "rig\t2\nday\t2\nstop\t0\n".into(), "no\t5\t3\n"),
        (0, "rig\t2\nday\t2\namp\t0\t1\n".into(), "no\t5\t3\n"),
        (0, "day\t99\n".into(), "no\t5\t1\n"),
        (0, format!("{four}day\t2\n"), "no\t3\t6\n"),
        (0, format!("{two}day\t2\n"), "no\t6\t4\n"),
        (0, "rig\t2\nday\t2\nopen\t0\t0\n".into(), "no\t2\t3\n"),
        (0, "rig\t2\nday\t2\nopen\t0\t-1\t0\n".into(), "no\t2\t3\n"),
        (0, "rig\t2\nday\t2\nopen\t2\t1\t1\n".into(), "no\t3\t3\n"),
        (0, "rig\t2\nday\t2\nopen\t0\t9\t3\n".into(), "no\t3\t3\n"),
        (0, "rig\t2\nday\t2\nopen\t0\t0\t0\n".into(), "no\t18\t3\n"),
        (0, "rig\t2\nday\t2\nopen\t0\t99999\t2\n".into(), "no\t18\t3\n"),
        (0, format!("{DAY}open\t1\t2\t2\n"), "no\t18\t5\n"),
        (0, format!("{A}open\t9\t9\t9\n"), "no\t5\t6\n"),
        (0, format!("{SWING}open\t0\t0\t1\n"), "no\t5\t5\n"),
        (0, "rig\t2\nopen\t0\t1\t1\n".into(), "no\t5\t2\n"),
        (0, "rig\t2\nmon\t2\ngo\t2\t0\t0\n".into(), "no\t3\t3\n"),
        (0, "rig\t2\nmon\t2\ngo\t0\t2\t0\n".into(), "no\t3\t3\n"),
        (0, "rig\t2\nmon\t2\ngo\t0\t0\t2\n".into(), "no\t3\t3\n"),
        (0, format!("{ONE}go\t0\t0\t0\n"), "no\t4\t4\n"),
        (0, "".into(), "no\t5\t1\n"),
        (0, "mon\t1\n".into(), "no\t5\t1\n"),
        (0, format!("{A}rig\t2\n"), "no\t5\t6\n"),
        (0, "rig\t1\ngo\t0\t0\t0\n".into(), "no\t5\t2\n"),
        (0, "rig\t1\n".into(), "no\t5\t2\n"),
        (0, format!("{two}mon\t2\n"), "no\t6\t4\n"),
        (1001, ONE.into(), "no\t7\t0\n"),
        (8, two.into(), "no\t8\t0\n"),
        (0, two.into(), "no\t9\t0\n"),
        (64, F.into(), "no\t10\t0\n"),
        // the first bad line counts; on one line 2, 5, 3, 16, 17 or 18, 4, 6; the rig before the horizon, the horizon before the cells
        (1001, "rig\t1\nmon\t1\nmon\t0\nx\n".into(), "no\t3\t3\n"),
        (0, "go\t0\t0\t99999\n".into(), "no\t5\t1\n"),
        (0, format!("{four}mon\t33\n"), "no\t3\t6\n"),
        (9, two.into(), "no\t8\t0\n"),
        (1001, two.into(), "no\t7\t0\n"),
    ];
    for (h, t, no) in refused {
        assert_eq!(tally.compare(&ask(h, t.as_bytes())), no.as_bytes(), "the independent refusal of a worked example");
    }
    // the sizes next to 8,192 cells: (h + 1) × P is 8,192, 8,160, 8,194, 8,008
    for (h, monitors) in [(7, "32\nmon\t32"), (511, "16"), (512, "16"), (239, "17\nmon\t2"), (240, "17\nmon\t2"), (1000, "8")] {
        tally.compare(&ask(h, format!("rig\t1\nmon\t{monitors}\n").as_bytes()));
    }
    for h in [0, 1, 2, 7, 30, 63, 999, 1000, 1001, 1002, 8191, 8192, 10_000, 65_535, 65_536, 99_999] {
        for t in [A, A_FROM_1, A_GAP, A_ORDERED, B, B_STOPS, CLASH, DAY, F, ONE, REPLY, SWING, two] {
            tally.compare(&ask(h, t.as_bytes()));
        }
    }
}

/// Inputs that are damaged in every way: each byte at each place, each place cut off, dropped and doubled; and `ask` lines of other forms.
fn damaged(tally: &mut Tally) {
    let good = ask(10, ONE.as_bytes());
    for at in 0..good.len() {
        for byte in 0..=255 {
            let mut input = good.clone();
            input[at] = byte;
            tally.compare(&input);
        }
    }
    for good in [(10, A_FROM_1), (10, A_ORDERED), (1, LAST), (2, CLASH), (3, SWING), (4, DAY)].map(|(h, t)| ask(h, t.as_bytes())) {
        for at in 0..good.len() {
            tally.compare(&good[..at]);
            tally.compare(&[&good[..at], &good[at + 1..]].concat());
            tally.compare(&[&good[..=at], &good[at..]].concat());
        }
    }
    for (t, line) in wrong_signs() {
        assert_eq!(tally.compare(&ask(1, &t)), format!("no\t2\t{line}\n").as_bytes(), "a sign where none may stand: {}", shown(&t));
    }
    let words = ["", "as", "asks", "asx", "bsk", "Ask", "ASK", "ask ", " ask", "\task", "ask\u{a0}", "rig", "mon", "go\t0\t0"];
    let horizons = ["", "00", "03", "00003", "000003", "100000", "999999", "4294967299", "18446744073709551619", "-3", "+3", "3.0", "0x3"];
    let more = ["three", " 3", "3 ", "\t3", "3\t", "3\t3", "3\r", "3\0", "\u{663}"];
    let others = ["", "\n", "\n\n", "ask", "ask\n", "ask\t", "ask\t3", "ask3\n", "ask 3\n", "ask\t3\n\n", "ask\t3\nask\t3\n"];
    let mut lines: Vec<String> = words.iter().map(|w| format!("{w}\t3\n")).collect();
    lines.extend(horizons.iter().chain(&more).map(|h| format!("ask\t{h}\n")));
    lines.extend(others.map(String::from));
    for line in lines {
        for t in [A, "", "\n", "rig\t1"] {
            tally.compare(format!("{line}{t}").as_bytes());
        }
    }
}

/// A rig whose scenarios at h are the numbers below n written with h digits of a base, so that the line of index i is i itself. In state k
/// the first k digits are those of n; in the last state they are those of a lower number, and everything is admitted.
fn numbers_below(n: u128, base: u128, h: u32) -> Vec<u8> {
    let mut t = format!("rig\t{base}\nmon\t{}\n", h + 1);
    for k in 0..=h {
        let digit = if k < h { n / base.pow(h - 1 - k) % base } else { base };
        for e in 0..base {
            if e < digit {
                t += &format!("go\t{k}\t{e}\t{h}\n");
            } else if e == digit && k + 1 < h {
                t += &format!("go\t{k}\t{e}\t{}\n", k + 1);
            }
        }
    }
    t.into_bytes()
}

/// Counts at the limits of what is listed and of what is counted.
fn counts(tally: &mut Tally) {
    let full = u64::MAX as u128;
    let low = [0, 1, 2, 9, 10, 11, 99, 100, 255, 256, 511, 998, 999, 1000, 1001, 1002, 1024, 4096, 9999, 10_000, 65_536, 99_999, 100_000];
    let high = [1 << 32, (1 << 32) + 1, 1 << 63, 10u128.pow(19) - 1, 10u128.pow(19), full - 1, full, full + 1, full + 2];
    for n in low.into_iter().chain(high) {
        for base in [2u128, 3, 10, 16] {
            let digits = (1..).find(|&h| base.pow(h) > n).unwrap();
            for h in [digits, digits + 1].into_iter().filter(|&h| h < 32) {
                let printed = String::from_utf8(tally.compare(&ask(h as u64, &numbers_below(n, base, h)))).unwrap();
                let (first, listed) = match n {
                    0 => ("no\t9\t0".to_string(), 0),
                    n if n < full => (format!("count\t{n}\t"), n.min(1000)),
                    _ => ("no\t10\t0".to_string(), 0),
                };
                let mut lines = String::new();
                for i in 0..listed {
                    lines += &format!("{i}");
                    (0..h).rev().for_each(|k| lines += &format!("\t{}", i / base.pow(k) % base));
                    lines += "\n";
                }
                let (head, rest) = printed.split_once('\n').unwrap();
                assert!(head.starts_with(&first) && rest == lines, "the independent listing of the numbers below {n}");
            }
        }
    }
}

/// The longest listings: at most one event 1, or at most one of two digits, so that there are h + 1 scenarios. And the longest ways to where a run
/// stops: 2^30 of 30 events, beside one scenario that goes on.
fn long_listings(tally: &mut Tally) {
    for (events, often, once) in [(2, 0, 1), (2, 1, 0), (16, 15, 14), (16, 9, 10)] {
        let t = format!("rig\t{events}\nmon\t2\ngo\t0\t{often}\t0\ngo\t0\t{once}\t1\ngo\t1\t{often}\t1\n");
        for h in [30, 998, 999, 1000] {
            tally.compare(&ask(h, t.as_bytes()));
        }
    }
    let path: String = (0..30).map(|s| format!("go\t{s}\t0\t{}\ngo\t{s}\t1\t{}\n", s + 1, s + 1)).collect();
    let t = format!("rig\t3\nmon\t32\n{path}stop\t30\ngo\t0\t2\t31\ngo\t31\t2\t31\n");
    for (h, first) in [(30, "count\t1073741825\t1\n"), (31, "count\t1\t1\n0\t2\t2"), (255, "count\t1\t1\n0\t2\t2")] {
        let printed = tally.compare(&ask(h, t.as_bytes()));
        assert!(printed.starts_with(first.as_bytes()), "the independent listing beside runs that stop");
    }
}

/// Inputs about the length that the program can hold, and far longer ones; also some that come in pieces.
fn long_inputs(tally: &mut Tally, rng: &mut Random) {
    let whole = text(&Shape { events: 16, monitors: vec![32, 32], density: 100, marks: 100, rules: 0 }, rng);
    let more = monitors(&Shape { events: 16, monitors: vec![1, 1], density: 100, marks: 100, rules: 0 }, rng);
    let largest = [whole, more].concat();
    for line in ["ask\t0\n", "ask\t1000\n", "ask\t99999\n", "ask\t100000\n", "asked\t3\n", "ask\t99999"] {
        for t in [A.as_bytes(), &largest] {
            tally.compare(&[line.as_bytes(), t].concat());
            for len in [65_525, 65_534, 65_535, 65_536, 65_537, 65_546, 65_547, 131_072, 200_000] {
                for fill in [b'\n', b'0', 200] {
                    let mut input = [line.as_bytes(), t].concat();
                    input.resize(line.len() + len, fill);
                    tally.compare(&input);
                }
            }
        }
    }
    for fill in [b'\n', b'a', b'\t', 255] {
        for len in [65_535, 65_545, 65_546, 65_547, 200_000] {
            tally.compare(&vec![fill; len]);
            tally.compare(&[b"ask\t", &vec![fill; len][..], b"\n", A.as_bytes()].concat());
        }
    }
    for pieces in [2, 3, 5, 8] {
        for input in [ask(3, A.as_bytes()), ask(2, &largest), ask(2, &vec![10; 65_536]), ask(1, B.as_bytes())] {
            tally.compare_in(&input, input.len() / pieces);
        }
    }
}

fn horizon(rng: &mut Random) -> u64 {
    match rng.below(40) {
        0 => *rng.pick(&[999, 1000, 1001, 5000, 99_999]),
        1 | 2 => 30,
        3 | 4 => rng.from_to(9, 80),
        _ => rng.below(8),
    }
}

/// Random rigs and random damage to the rig and to the `ask` line.
fn random(tally: &mut Tally, rng: &mut Random) {
    for _ in 0..3_000 {
        let most = *rng.pick(&[4, 12, 40]);
        let mut t = text(&Shape::small(rng, 4, most), rng);
        match rng.below(18) {
            0 | 1 => t = other_start(&t, rng),
            2 => t = other_order(&t, rng),
            3 => t = other_marks(&t, rng),
            4 | 5 => t = other_rules(&t, rng),
            6..=8 => t = other_bal(&t, rng),
            9..=11 => t = other_day(&t, rng),
            _ => (),
        }
        tally.compare(&ask(horizon(rng), &t));
    }
    for _ in 0..1_500 {
        let t = text(&Shape { rules: 100, ..Shape::small(rng, 4, 40) }, rng);
        tally.compare(&ask(horizon(rng), &t));
    }
    for _ in 0..100 {
        let (monitors, density) = (vec![rng.from_to(1, 4), rng.from_to(1, 2)], *rng.pick(&[30, 45, 60]));
        let (marks, rules) = (*rng.pick(&[0, 50]), *rng.pick(&[0, 50]));
        let t = text(&Shape { events: rng.from_to(1, 3), monitors, density, marks, rules }, rng);
        tally.compare(&ask(*rng.pick(&[30, 100, 1000]), &t));
    }
    for _ in 0..300 {
        let monitors = (0..rng.from_to(1, 5)).map(|_| *rng.pick(&[1, 2, 3, 8, 16, 31, 32, 33])).collect();
        let (marks, rules) = (*rng.pick(&[0, 30, 100]), *rng.pick(&[0, 50]));
        let t = text(&Shape { events: rng.from_to(1, 16), monitors, density: 70, marks, rules }, rng);
        tally.compare(&ask(rng.below(10), &t));
    }
    for _ in 0..4_000 {
        let mut t = text(&Shape::small(rng, 3, 8), rng);
        for _ in 0..rng.from_to(1, 3) {
            t = damage(&t, rng);
        }
        tally.compare(&ask(horizon(rng), &t));
    }
    for _ in 0..1_000 {
        let line = damage(&ask(horizon(rng), b""), rng);
        let t = text(&Shape::small(rng, 3, 8), rng);
        tally.compare(&[line, t].concat());
    }
    for _ in 0..200 {
        let noise: Vec<u8> =
            (0..rng.below(200)).map(|_| if rng.chance(1, 2) { rng.word() as u8 } else { *rng.pick(b"ask\t0123\n") }).collect();
        tally.compare(&noise);
        tally.compare(&ask(3, &noise));
    }
}

fn main() {
    let program = std::env::args().nth(1).expect("the program to run");
    let mut tally =
        Tally { program, inputs: 0, differences: 0, outcomes: BTreeMap::new(), served: BTreeSet::new(), lines: BTreeMap::new() };
    let rng = &mut Random::seeded(20_261_116);
    worked(&mut tally);
    damaged(&mut tally);
    counts(&mut tally);
    long_listings(&mut tally);
    long_inputs(&mut tally, rng);
    random(&mut tally, rng);
    let served = [Outcome::Fewer, Outcome::Thousand, Outcome::More, Outcome::BadAsk];
    for outcome in served.into_iter().chain((1..=10).chain([16, 17, 18]).map(Outcome::Refused)) {
        assert!(tally.outcomes.contains_key(&outcome), "no input is expected to give {outcome:?}");
    }
    for h in [0, 1, 30, 1000] {
        assert!(tally.served.contains(&h), "no input is served at horizon {h}");
    }
    for (word, times) in &tally.lines {
        assert!(*times > 300, "few inputs with a `{word}` line are served: {times}");
    }
    for (outcome, (times, wrong)) in &tally.outcomes {
        let name = match outcome {
            Outcome::Fewer => "served, fewer than 1,000".into(),
            Outcome::Thousand => "served, 1,000".into(),
            Outcome::More => "served, more than 1,000".into(),
            Outcome::BadAsk => "bad ask line".into(),
            Outcome::Refused(number) => format!("refusal {number}"),
        };
        println!("{:20} {name:24} {times:8} {wrong:8}", "program");
    }
    println!("served inputs by their lines: {:?}", tally.lines);
    println!("{} listings, {} differences", tally.inputs, tally.differences);
    if tally.differences > 0 {
        std::process::exit(1);
    }
}
