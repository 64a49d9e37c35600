//! Rig texts: random ones that are readable, and damage done to them.
use crate::model::{Monitor, Rig};
use crate::random::Random;
use crate::rules::Rule;

pub const A: &str = "rig\t2\nmon\t2\ngo\t0\t0\t0\ngo\t0\t1\t1\ngo\t1\t0\t0\n";
/// A that begins in its state 1.
pub const A_FROM_1: &str = "rig\t2\nmon\t2\t1\ngo\t0\t0\t0\ngo\t0\t1\t1\ngo\t1\t0\t0\n";
/// A with event 1 before event 0.
pub const A_ORDERED: &str = "rig\t2\nord\t1\t0\nmon\t2\ngo\t0\t0\t0\ngo\t0\t1\t1\ngo\t1\t0\t0\n";
pub const B: &str = "rig\t2\nmon\t2\ngo\t0\t0\t0\ngo\t0\t1\t1\ngo\t1\t0\t0\nmon\t2\ngo\t0\t0\t0\ngo\t0\t1\t1\ngo\t1\t1\t1\n";
/// B with state 1 of both monitors marked: event 1 may be the last.
pub const B_STOPS: &str =
    "rig\t2\nmon\t2\ngo\t0\t0\t0\ngo\t0\t1\t1\ngo\t1\t0\t0\nstop\t1\nmon\t2\nstop\t1\ngo\t0\t0\t0\ngo\t0\t1\t1\ngo\t1\t1\t1\n";
pub const F: &str = "rig\t2\nmon\t1\ngo\t0\t0\t0\ngo\t0\t1\t0\n";
pub const ONE: &str = "rig\t1\nmon\t1\ngo\t0\t0\t0\n";
/// One event, and no more.
pub const LAST: &str = "rig\t1\nmon\t2\ngo\t0\t0\t1\nstop\t1\n";
/// Event 0 and no more, or event 1 for ever.
pub const EITHER: &str = "rig\t2\nmon\t4\ngo\t0\t0\t1\ngo\t0\t1\t2\ngo\t2\t1\t2\nstop\t1\n";
/// A by its sentence: two 1s are at least two steps apart. Its moves are those of A; both states are marked.
pub const A_GAP: &str = "rig\t2\ngap\t1\t2\n";
/// After event 0 comes event 1, one or two steps later.
pub const REPLY: &str = "rig\t3\nreply\t0\t1\t1\t2\n";
/// After event 0 comes event 1 at once, but two 1s are at least three steps apart: 1 0 can't be carried on.
pub const CLASH: &str = "rig\t2\ngap\t1\t3\nreply\t0\t1\t1\t1\n";
/// Event 0 brings the difference up by one and event 1 down; it stays from -1 to 1.
pub const SWING: &str = "rig\t2\nbal\t-1\t1\namp\t0\t1\namp\t1\t-1\n";

/// A day of three steps: event 1 comes only at the first and at the last.
pub const DAY: &str = "rig\t2\nday\t3\nopen\t1\t0\t1\nopen\t1\t2\t3\n";

/// The shape of a rig: events, states of each monitor, how many in a hundred moves it has, how many in a hundred states are marked, and how many
/// in a hundred monitors are `gap`, `reply`, `bal` or `day` lines.
pub struct Shape {
    pub events: u64,
    pub monitors: Vec<u64>,
    pub density: u64,
    pub marks: u64,
    pub rules: u64,
}

impl Shape {
    /// A small rig of 1 to 4 monitors with at most `most` joint states. Half of them have no marks but those of `gap`, `reply`, `bal` and `day` lines, which
    /// every other one may have.
    pub fn small(rng: &mut Random, events: u64, most: u64) -> Shape {
        let mut left = most;
        let monitors = (0..rng.from_to(1, 4))
            .map(|_| {
                let s = rng.from_to(1, left.min(6));
                left /= s;
                s
            })
            .collect();
        let (density, marks) = (*rng.pick(&[25, 50, 70, 85, 100]), *rng.pick(&[0, 0, 0, 0, 30, 60, 80, 100]));
        Shape { events: rng.from_to(1, events), monitors, density, marks, rules: *rng.pick(&[0, 0, 0, 40, 100, 100]) }
    }
}

/// An `ord` line.
fn ord<T: ToString>(events: &[T]) -> String {
    format!("ord{}\n", events.iter().map(|e| format!("\t{}", e.to_string())).collect::<String>())
}

/// A readable text of this shape; half of them have an `ord` line.
pub fn text(shape: &Shape, rng: &mut Random) -> Vec<u8> {
    let mut t = format!("rig\t{}\n", shape.events);
    if rng.chance(1, 2) {
        let mut events: Vec<u64> = (0..shape.events).collect();
        rng.shuffle(&mut events);
        t += &ord(&events);
    }
    [t.as_bytes(), &monitors(shape, rng)].concat()
}

/// The lines of the monitors of this shape; those after the first of each stand in random order.
pub fn monitors(shape: &Shape, rng: &mut Random) -> Vec<u8> {
    let mut t = String::new();
    for &s in &shape.monitors {
        let rule = if rng.chance(shape.rules, 100) {
            Rule::random(s, shape.events, rng)
        } else {
            Rule::random_mon(s, shape.events, shape.density, shape.marks, rng)
        };
        let mut lines = rule.lines();
        rng.shuffle(&mut lines[1..]);
        t += &lines.concat();
    }
    t.into_bytes()
}

/// The text with another start in one of its `mon` lines: one that is just a state or just none, or no number at all.
pub fn other_start(t: &[u8], rng: &mut Random) -> Vec<u8> {
    let mut ls = lines(t);
    let mons: Vec<usize> = (0..ls.len()).filter(|&k| ls[k].starts_with(b"mon\t")).collect();
    if mons.is_empty() {
        return t.to_vec();
    }
    let k = *rng.pick(&mons);
    let line = String::from_utf8_lossy(&ls[k]).trim_end_matches('\n').to_string();
    let s = line.split('\t').nth(1).unwrap().to_string();
    let states: u64 = s.parse().unwrap_or(2);
    let near = [states.saturating_sub(1), states, states + 1, 0].map(|n| n.to_string());
    let start = if rng.chance(3, 4) { rng.pick(&near).clone() } else { rng.pick(FIELDS).to_string() };
    ls[k] = format!("mon\t{s}\t{start}\n").into_bytes();
    ls.concat()
}

/// A rig of these lines and no others.
pub fn ruled(rules: &[Rule], order: &[usize]) -> Vec<u8> {
    let lines: String = rules.iter().flat_map(Rule::lines).collect();
    format!("rig\t{}\n{}{lines}", order.len(), ord(order)).into_bytes()
}

/// Event 15 goes on, event 7 fewer than `levels` times in all; the other monitors turn round with both. Few counts are large.
pub fn slow_growth(levels: u64, others: &[u64]) -> Vec<u8> {
    let mut t = format!("rig\t16\nmon\t{levels}\n");
    for s in 0..levels {
        t += &format!("go\t{s}\t15\t{s}\n");
        if s + 1 < levels {
            t += &format!("go\t{s}\t7\t{}\n", s + 1);
        }
    }
    for &states in others {
        t += &format!("mon\t{states}\n");
        for s in 0..states {
            t += &format!("go\t{s}\t15\t{}\ngo\t{s}\t7\t{}\n", (s + 1) % states, (s + 5) % states);
        }
    }
    t.into_bytes()
}

/// How the last state of a chain is.
#[derive(Clone, Copy, PartialEq, Eq)]
pub enum End {
    /// No state is live.
    Dead,
    /// It is stoppable, and so every state is live.
    Stops,
    /// The same; and an event that leads aside from each of the first states, where that event goes on for ever.
    Aside,
}

/// `first` × `second` joint states in a row, each led to by the one before with so many events: some count the second monitor up, the others carry.
pub fn chain(first: u64, second: u64, ways: u64, end: End) -> Vec<u8> {
    let (ups, carries, aside) = (0..ways, ways..2 * ways, 2 * ways);
    let (stops, leads_aside) = (end != End::Dead, end == End::Aside);
    let mut t = format!("rig\t{}\nmon\t{}\n", 2 * ways + leads_aside as u64, first + leads_aside as u64);
    for s in 0..first {
        t.extend(ups.clone().map(|e| format!("go\t{s}\t{e}\t{s}\n")));
        if s + 1 < first {
            t.extend(carries.clone().map(|e| format!("go\t{s}\t{e}\t{}\n", s + 1)));
        }
    }
    if leads_aside {
        t += &format!("go\t0\t{aside}\t{first}\ngo\t{first}\t{aside}\t{first}\n");
    }
    if stops {
        t += &format!("stop\t{}\n", first - 1);
    }
    t += &format!("mon\t{second}\n");
    for s in 0..second - 1 {
        t.extend(ups.clone().map(|e| format!("go\t{s}\t{e}\t{}\n", s + 1)));
    }
    t.extend(carries.map(|e| format!("go\t{}\t{e}\t0\n", second - 1)));
    if leads_aside {
        t.extend((0..second).map(|s| format!("go\t{s}\t{aside}\t{s}\n")));
    }
    if stops {
        t += &format!("stop\t{}\n", second - 1);
    }
    t.into_bytes()
}

/// A rig of 16 events that moves to higher states of its first monitor only, mostly past the next: all its runs stop. So there are more and more
/// scenarios of longer horizons, often too many, then fewer and at last none. A second monitor may end them earlier.
pub fn upward(rng: &mut Random) -> Vec<u8> {
    let (states, next, marks) = (rng.from_to(28, 32), *rng.pick(&[2, 3, 3, 4, 5]), *rng.pick(&[0, 0, 20]));
    let mut t = format!("rig\t16\nmon\t{states}\n");
    for (s, e) in (0..states - 1).flat_map(|s| (0..16).map(move |e| (s, e))) {
        let up = if rng.chance(next, 16) { 1 } else { rng.from_to(2, 3) };
        t += &format!("go\t{s}\t{e}\t{}\n", (s + up).min(states - 1));
    }
    t.extend((0..states).filter(|&s| s == states - 1 || rng.chance(marks, 100)).map(|s| format!("stop\t{s}\n")));
    let shape = Shape { events: 16, monitors: vec![rng.from_to(1, 6)], density: *rng.pick(&[85, 100]), marks: 100, rules: 0 };
    [t.into_bytes(), monitors(&shape, rng)].concat()
}

/// The second field of a line, or 2 where that is no number.
fn first_number(line: &[u8]) -> u64 {
    String::from_utf8_lossy(line).trim_end().split('\t').nth(1).and_then(|n| n.parse().ok()).unwrap_or(2)
}

/// The text with an `ord` line that is just right or just wrong, in the place of its second line or beside it, or elsewhere.
pub fn other_order(t: &[u8], rng: &mut Random) -> Vec<u8> {
    let mut ls = lines(t);
    let events = first_number(&ls[0]);
    let mut listed: Vec<String> = (0..events).rev().map(|e| e.to_string()).collect();
    let at = rng.below(events.max(1)) as usize;
    match rng.below(8) {
        0 => {
            listed.pop();
        }
        1 => listed.push(rng.below(events + 1).to_string()),
        2 => listed[at] = events.to_string(),
        3 | 4 => listed[at] = rng.below(events).to_string(),
        5 => listed[at] = rng.pick(FIELDS).to_string(),
        6 => listed = (0..rng.below(40)).map(|e| (e % 20).to_string()).collect(),
        _ => (),
    }
    let line = ord(&listed).into_bytes();
    match rng.below(6) {
        0 => ls.insert(rng.below(ls.len() as u64 + 1) as usize, line),
        1 | 2 if ls.len() > 1 => ls.insert(1, line),
        _ if ls.len() > 1 && ls[1].starts_with(b"ord") => ls[1] = line,
        _ => ls.insert(1.min(ls.len()), line),
    }
    ls.concat()
}

/// The text with one `stop` line more, anywhere: its state is just one of the monitor's or just none, perhaps marked already; or it has no form.
pub fn other_marks(t: &[u8], rng: &mut Random) -> Vec<u8> {
    let mut ls = lines(t);
    let at = rng.below(ls.len() as u64 + 1) as usize;
    let states = ls[..at].iter().rev().find(|l| l.starts_with(b"mon\t")).map_or(2, |l| first_number(l));
    let near = *rng.pick(&[states.saturating_sub(1), states, states + 1, 0]);
    let line = match rng.below(8) {
        0 => "stop\n".to_string(),
        1 => format!("stop\t{near}\t{}\n", rng.below(3)),
        2 => format!("stop\t{}\n", rng.pick(FIELDS)),
        _ => format!("stop\t{near}\n"),
    };
    ls.insert(at, line.into_bytes());
    ls.concat()
}

/// The text with one `gap` or `reply` line more, at its end or anywhere: its numbers are just in their ranges or just out of them, or it has no form. A
/// `go` or `stop` line may follow.
pub fn other_rules(t: &[u8], rng: &mut Random) -> Vec<u8> {
    let events = first_number(&lines(t)[0]);
    let event = |rng: &mut Random| if rng.chance(1, 12) { *rng.pick(&[events, events + 1, 256, 99_999]) } else { rng.below(events.max(1)) };
    let mut fields = if rng.chance(1, 2) {
        vec![event(rng), *rng.pick(&[2, 2, 3, 4, 5, 31, 32, 33, 1, 0, 258])]
    } else {
        let (a, hi) = (event(rng), *rng.pick(&[1, 2, 2, 3, 4, 5, 30, 31, 32, 0]));
        let b = if rng.chance(1, 4) { a } else { event(rng) };
        vec![a, b, *rng.pick(&[1, 1, 1, 2, hi, hi, hi + 1, 0, 257]), hi]
    };
    let word = if fields.len() == 2 { "gap" } else { "reply" };
    match rng.below(12) {
        0 => {
            fields.pop();
        }
        1 => fields.push(1),
        _ => (),
    }
    let mut fields: Vec<String> = fields.iter().map(|n| n.to_string()).collect();
    if rng.chance(1, 12) {
        let k = rng.below(fields.len() as u64) as usize;
        fields[k] = rng.pick(FIELDS).to_string();
    }
    let next = ["", "", "", "go\t0\t0\t0\n", "stop\t0\n", "go\t99999\t16\t32\n", "stop\t32\n", "go\t0\t0\n"];
    with_lines(t, format!("{word}\t{}\n{}", fields.join("\t"), rng.pick(&next)), rng)
}

/// The text with these lines more, at its end or anywhere.
fn with_lines(t: &[u8], more: String, rng: &mut Random) -> Vec<u8> {
    let mut ls = lines(t);
    let at = if rng.chance(1, 2) { ls.len() } else { rng.below(ls.len() as u64 + 1) as usize };
    ls.insert(at, more.into_bytes());
    ls.concat()
}

/// A number from the first list; seldom one from the second, or a field that is wrong everywhere.
fn field(inside: &[i64], outside: &[i64], rng: &mut Random) -> String {
    match rng.below(32) {
        0 => rng.pick(&SIGNS.concat()).to_string(),
        1..=3 => rng.pick(outside).to_string(),
        _ => rng.pick(inside).to_string(),
    }
}

/// An event field: most are below E.
fn event(events: i64, rng: &mut Random) -> String {
    field(&(0..events.max(1)).collect::<Vec<_>>(), &[events, events + 1, 16, 256, 65_536, 99_999], rng)
}

/// Lines that mustn't follow a `bal` or a `day`, or only one of the two, and lines of no form; or none.
const NEXT: &[&str] = &[
    "",
    "",
    "",
    "",
    "",
    "go\t0\t0\t0\n",
    "stop\t0\n",
    "go\t99999\t16\t32\n",
    "stop\t32\n",
    "amp\t0\t1\n",
    "amp\t99\t-99\n",
    "amp\t0\n",
    "amp\t0\t0\t0\n",
    "bal\t0\n",
    "open\t0\t0\t1\n",
    "open\t99\t99\t0\n",
    "open\t0\t0\n",
    "open\t0\t0\t1\t1\n",
    "day\t2\t2\n",
];

/// The text with a `bal` line and some `amp` lines more, or with `amp` lines alone: their numbers are just in their ranges or just out of them, an event may
/// come twice, and a sign may be wrong. A line may follow that mustn't.
pub fn other_bal(t: &[u8], rng: &mut Random) -> Vec<u8> {
    let events = first_number(&lines(t)[0]) as i64;
    let mut more = String::new();
    if rng.chance(3, 4) {
        let lo = field(&[0, 0, -1, -1, -2, -3, -14, -15], &[1, -16, 15, -255, -256, -65_536, -99_999], rng);
        let hi = field(&[0, 0, 1, 1, 2, 3, 14, 15], &[-1, 16, -15, 256, 271, 65_536, 99_999], rng);
        more += &format!("bal\t{lo}\t{hi}\n");
    }
    for _ in 0..*rng.pick(&[0, 1, 1, 2, 2, 3]) {
        let d = field(&[0, 0, 1, 1, -1, -1, 2, -3, 14, 15, -15], &[16, -16, -241, 256, -256, 65_535, -65_535, 99_999, -99_999], rng);
        more += &format!("amp\t{}\t{d}\n", event(events, rng));
    }
    with_lines(t, more + *rng.pick(NEXT), rng)
}

/// The text with a `day` line and some `open` lines more, or with `open` lines alone: their numbers are just in their ranges or just out of them, a is below b
/// or not, and a sign may be wrong. A line may follow that mustn't.
pub fn other_day(t: &[u8], rng: &mut Random) -> Vec<u8> {
    let events = first_number(&lines(t)[0]) as i64;
    let steps = *rng.pick(&[2, 2, 2, 3, 3, 4, 5, 31, 32]);
    let mut more = String::new();
    if rng.chance(3, 4) {
        more += &format!("day\t{}\n", field(&[steps], &[0, 1, 33, 34, 258, 65_538, 99_999], rng));
    }
    for _ in 0..*rng.pick(&[0, 1, 1, 2, 2, 3, 5]) {
        let b = field(&[1, 1, 2, steps - 1, steps, steps], &[steps + 1, 33, 0, 256, 257, 65_537, 99_999], rng);
        let end: i64 = b.parse().unwrap_or(1);
        let (below, not_below) = ([0, 0, end.max(1) - 1, end.max(2) - 2], [end, end, end + 1, 33, 256, 65_536, 99_999]);
        let from = if rng.chance(1, 4) { &not_below[..] } else { &below };
        more += &format!("open\t{}\t{}\t{b}\n", event(events, rng), field(from, from, rng));
    }
    with_lines(t, more + *rng.pick(NEXT), rng)
}

/// Two texts, with a line of each form between them, and each number field in turn with each of the signs that are wrong everywhere, and with -1 where no
/// sign may stand; and the number of that line, from 1.
pub fn wrong_signs() -> Vec<(Vec<u8>, u64)> {
    let mut wrong = vec![];
    for good in [
        "rig\t4\nord\t3\t2\t1\t0\nmon\t2\t1\ngo\t0\t0\t0\nstop\t0\ngap\t1\t2\nreply\t0\t1\t1\t1\nbal\t-3\t4\namp\t2\t-1\n",
        "rig\t4\nmon\t2\nday\t3\nopen\t1\t0\t2\nopen\t1\t2\t3\n",
    ] {
        let ls: Vec<Vec<&str>> = good.lines().map(|l| l.split('\t').collect()).collect();
        for (k, f) in (0..ls.len()).flat_map(|k| (1..ls[k].len()).map(move |f| (k, f))) {
            let unsigned = !(ls[k][0] == "bal" || (ls[k][0] == "amp" && f == 2));
            for field in SIGNS.concat().into_iter().chain(unsigned.then_some("-1")) {
                let mut ls = ls.clone();
                ls[k][f] = field;
                wrong.push((ls.iter().map(|l| l.join("\t") + "\n").collect::<String>().into_bytes(), k as u64 + 1));
            }
        }
    }
    wrong
}

/// The text without its `stop` lines.
pub fn endless(t: &[u8]) -> Vec<u8> {
    lines(t).into_iter().filter(|l| !l.starts_with(b"stop\t")).flatten().collect()
}

/// The text without its second line, where that is an `ord` line.
pub fn lower_first(t: &[u8]) -> Vec<u8> {
    let mut ls = lines(t);
    if ls.len() > 1 && ls[1].starts_with(b"ord\t") {
        ls.remove(1);
    }
    ls.concat()
}

/// The rig with every monitor as a `mon` line, followed by a `go` line for each of its moves and a `stop` line for each marked state.
pub fn written_out(rig: &Rig) -> Vec<u8> {
    let mut t = format!("rig\t{}\n{}", rig.events, ord(&rig.order));
    for m in &rig.monitors {
        t += &if m.start > 0 { format!("mon\t{}\t{}\n", m.states, m.start) } else { format!("mon\t{}\n", m.states) };
        for (s, e) in (0..m.states).flat_map(|s| (0..rig.events).map(move |e| (s, e))) {
            t += &m.moves.get(&(s, e)).map_or(String::new(), |y| format!("go\t{s}\t{e}\t{y}\n"));
        }
        t.extend((0..m.states).filter(|s| m.marked.contains(s)).map(|s| format!("stop\t{s}\n")));
    }
    t.into_bytes()
}

/// The same rig written out, with the states of each monitor renumbered so that it starts in 0; no `mon` line carries a start.
pub fn from_state_0(rig: &Rig, rng: &mut Random) -> Vec<u8> {
    let renumbered = |m: &Monitor| {
        let mut new: Vec<usize> = (0..m.states).collect();
        rng.shuffle(&mut new);
        let zero = new.iter().position(|&n| n == 0).unwrap();
        new.swap(zero, m.start);
        let moves = m.moves.iter().map(|((s, e), y)| ((new[*s], *e), new[*y])).collect();
        Monitor { start: 0, moves, marked: m.marked.iter().map(|&s| new[s]).collect(), ..*m }
    };
    written_out(&Rig { monitors: rig.monitors.iter().map(renumbered).collect(), ..rig.clone() })
}

const ODD: &[u8] = b"0123456789\t\n\r rigmongordstpaelyb--+\0\x7f\xff";
const FIELDS: &[&str] =
    &["0", "1", "2", "3", "4", "5", "8", "16", "17", "32", "33", "99999", "100000", "00", "01", "", "-1", "1 ", "x", "4294967297"];
const SIGNED: &[&str] = &["15", "-1", "-2", "-15", "-16", "-99999", "-100000", "-0"];
/// Fields that are wrong everywhere: by their sign, by other bytes or digits, and no field or two.
const SIGNS: [&[&str]; 3] = [
    &["-0", "-00", "-01", "--1", "+1", "+0", "-", "--", "+", "- 1", " -1", "-1 ", "1-", "0-", "-1-", "-+1", "+-1", "-x", "-1.0"],
    &["\u{2212}1", "\u{ad}1", "-\01", "-100000", "-000001", "100000", "-4294967297"],
    &["", "-\t1", "\t-1", "-1\t"],
];
const LINES: &[&str] = &[
    "",
    "rig\t2",
    "mon\t2",
    "mon\t5",
    "mon\t32",
    "mon\t32",
    "mon\t31",
    "go\t1\t0\t1",
    "go\t0\t1\t0",
    "mon\t0",
    "mon\t33",
    "mon",
    "go\t0\t0\t0",
    "go\t0\t0",
    "go\t0\t0\t0\t0",
    "rig",
    "RIG\t2",
    "rig\t2\t",
    "\trig\t2",
    "ord",
    "ord\t",
    "ord\t0",
    "ord\t0\t1",
    "ord\t1\t0",
    "ord\t1\t1",
    "ord\t2\t0\t1",
    "ord\t0\t01",
    "order\t0",
    "stop",
    "stop\t",
    "stop\t0",
    "stop\t1",
    "stop\t0\t1",
    "stop\t32",
    "stop\t01",
    "stops\t0",
    "gap\t0\t2",
    "gap\t1\t3",
    "gap\t0\t32",
    "gap\t0\t33",
    "gap\t0\t1",
    "gap\t16\t2",
    "gap\t0",
    "gap\t0\t2\t0",
    "gap\t0\t02",
    "gaps\t0\t2",
    "reply\t0\t1\t1\t2",
    "reply\t1\t0\t2\t2",
    "reply\t0\t1\t1\t31",
    "reply\t0\t1\t1\t32",
    "reply\t0\t1\t0\t2",
    "reply\t0\t1\t3\t2",
    "reply\t0\t16\t1\t2",
    "reply\t0\t0\t1\t2",
    "reply\t1\t1\t1\t31",
    "reply\t0\t0\t3\t2",
    "reply\t0\t1\t2",
    "reply\t0\t1\t1\t2\t3",
    "reply",
    "replys\t0\t1\t1\t2",
    "bal\t0\t1",
    "bal\t-2\t2",
    "bal\t0\t0",
    "bal\t-15\t15",
    "bal\t-16\t15",
    "bal\t-15\t16",
    "bal\t1\t1",
    "bal\t-1\t-1",
    "bal\t-0\t1",
    "bal\t0",
    "bal\t-1\t1\t0",
    "bals\t0\t1",
    "amp\t0\t1",
    "amp\t1\t-1",
    "amp\t0\t0",
    "amp\t0\t-15",
    "amp\t0\t16",
    "amp\t0\t-16",
    "amp\t16\t1",
    "amp\t-1\t1",
    "amp\t0\t-0",
    "amp\t0\t+1",
    "amp\t0",
    "amp\t0\t1\t1",
    "amps\t0\t1",
    "day\t2",
    "day\t3",
    "day\t32",
    "day\t33",
    "day\t1",
    "day\t-2",
    "day\t02",
    "day",
    "day\t3\t1",
    "days\t3",
    "open\t0\t0\t1",
    "open\t1\t1\t2",
    "open\t0\t0\t2",
    "open\t0\t1\t3",
    "open\t0\t0\t33",
    "open\t0\t2\t2",
    "open\t0\t3\t2",
    "open\t0\t0\t0",
    "open\t0\t99999\t1",
    "open\t16\t0\t1",
    "open\t0\t-1\t1",
    "open\t0\t0\t-1",
    "open\t0\t1",
    "open\t0\t0\t1\t2",
    "opens\t0\t0\t1",
    "night\t3",
    "mon\t2\t1",
    "mon\t3\t2",
    "mon\t2\t2",
    "mon\t2\t",
    "mon\t2\t1\t0",
    "rig\t2\t1",
    "rig\t17",
    "rig\t0",
];

fn lines(t: &[u8]) -> Vec<Vec<u8>> {
    t.split_inclusive(|&b| b == 10).map(|l| l.to_vec()).collect()
}

/// One random edit of a text.
pub fn damage(t: &[u8], rng: &mut Random) -> Vec<u8> {
    let mut t = t.to_vec();
    let at = rng.below(t.len() as u64 + 1) as usize;
    match rng.below(21) {
        0 if at < t.len() => t[at] = *rng.pick(ODD),
        1 if at < t.len() => t[at] = rng.word() as u8,
        2 if at < t.len() => {
            t.remove(at);
        }
        3 => t.insert(at, *rng.pick(ODD)),
        4 => t.truncate(at),
        5 => {
            t.pop();
        }
        6 => t = t.iter().flat_map(|&b| if b == 10 { vec![13, 10] } else { vec![b] }).collect(),
        7 => t = t.iter().flat_map(|&b| if b == 9 && rng.chance(1, 3) { vec![9, *rng.pick(b"0\t")] } else { vec![b] }).collect(),
        8..=17 => {
            let mut ls = lines(&t);
            if ls.is_empty() {
                ls.push(vec![]);
            }
            let (k, j) = (rng.below(ls.len() as u64) as usize, rng.below(ls.len() as u64) as usize);
            match rng.below(5) {
                0 => {
                    ls.remove(k);
                }
                1 => {
                    let l = ls[k].clone();
                    ls.insert(j, l);
                }
                2 => ls.swap(k, j),
                3 => ls.insert(k, format!("{}\n", rng.pick(LINES)).into_bytes()),
                _ => {
                    let mut fields: Vec<String> =
                        String::from_utf8_lossy(&ls[k]).trim_end_matches('\n').split('\t').map(String::from).collect();
                    let f = rng.below(fields.len() as u64) as usize;
                    fields[f] = rng.pick(&[FIELDS, SIGNED].concat()).to_string();
                    ls[k] = (fields.join("\t") + "\n").into_bytes();
                }
            }
            t = ls.concat();
        }
        18 => {
            let l = lines(&t);
            t.extend(l.concat());
        }
        19 => t = t.iter().flat_map(|&b| if b == 9 && rng.chance(1, 4) { vec![9, 45] } else { vec![b] }).collect(),
        _ => t.extend_from_slice(format!("{}\n", rng.pick(LINES)).as_bytes()),
    }
    t
}
