//! The bench of a sheet, 'a plain machine: a current sequence and slots', and what is said of the commands that it runs. It isn't told the scenarios, and
//! knows nothing of how a sheet is written.
use crate::model;
use std::collections::HashMap;

#[derive(Clone, Debug, PartialEq, Eq)]
enum Command {
    Load(u64),
    Run(Vec<u8>),
    Save(u64),
}

/// The command of a line, without its end.
fn command(line: &[u8]) -> Option<Command> {
    let mut fields = line.split(|&b| b == 9);
    let word = fields.next()?;
    let numbers: Vec<u64> = fields.map(|f| model::number(f).map(|n| n as u64)).collect::<Option<_>>()?;
    match (word, &numbers[..]) {
        (b"load", [j]) => Some(Command::Load(*j)),
        (b"save", [j]) => Some(Command::Save(*j)),
        (b"run", events) => Some(Command::Run(events.iter().map(|&e| u8::try_from(e).ok()).collect::<Option<_>>()?)),
        _ => None,
    }
}

/// The commands of a sheet, of which every line is ended.
fn commands(sheet: &[u8]) -> Result<Vec<Command>, String> {
    let mut lines: Vec<&[u8]> = sheet.split(|&b| b == 10).collect();
    if !lines.pop().unwrap().is_empty() {
        return Err("the last line unended".into());
    }
    let bad = |at| format!("line {} of the sheet", at + 1);
    lines.iter().enumerate().map(|(at, line)| command(line).ok_or_else(|| bad(at))).collect()
}

/// What a sheet does.
#[derive(Debug, Default, PartialEq, Eq)]
pub struct Done {
    /// The sequences that it arrives at, one for each `load`.
    pub arrived: Vec<Vec<u8>>,
    /// The depth of each `load`.
    pub loaded: Vec<usize>,
    /// How many events it runs.
    pub events: u64,
}

/// How many events the two begin with alike.
pub fn shared(a: &[u8], b: &[u8]) -> usize {
    a.iter().zip(b).take_while(|(x, y)| x == y).count()
}

struct Bench {
    current: Vec<u8>,
    slots: HashMap<u64, Vec<u8>>,
    h: usize,
    g: u64,
    done: Done,
}

impl Bench {
    /// Slot j of this depth, if there is one: 'Slot j is for depth j × g'.
    fn slot(&self, depth: usize) -> Option<u64> {
        (depth as u64).is_multiple_of(self.g).then(|| depth as u64 / self.g)
    }

    /// What ends where a `load` stands, or the sheet: the current sequence is the scenario that is arrived at. The depth that it was loaded at is 'the deepest
    /// such depth within the start it shares with the one before (slot 0 for the first)'.
    fn arrive(&mut self) -> Result<(), String> {
        let at = self.done.arrived.len();
        if self.current.len() != self.h {
            return Err(format!("scenario {at} has {} events", self.current.len()));
        }
        let within = self.done.arrived.last().map_or(0, |before| shared(before, &self.current));
        let deepest = (0..=within).rev().find(|&depth| self.slot(depth).is_some());
        if deepest != Some(self.done.loaded[at]) {
            return Err(format!("scenario {at} shares {within} events and is loaded at {}", self.done.loaded[at]));
        }
        self.done.arrived.push(self.current.clone());
        Ok(())
    }

    /// Runs one command; `next` is the one after it.
    fn run(&mut self, command: &Command, next: Option<&Command>) -> Result<(), String> {
        let depth = self.current.len();
        match command {
            Command::Load(j) => {
                if !self.done.loaded.is_empty() {
                    self.arrive()?;
                }
                self.current = self.slots.get(j).ok_or(format!("nothing in slot {j}"))?.clone();
                if self.slot(self.current.len()) != Some(*j) {
                    return Err(format!("{} events in slot {j}", self.current.len()));
                }
                self.done.loaded.push(self.current.len());
                // 'saves at each depth reached after the load'
                if matches!(next, Some(Command::Save(_))) {
                    return Err(format!("the loaded depth {} is saved", self.current.len()));
                }
            }
            Command::Run(events) => {
                let end = depth + events.len();
                let over = (depth + 1..end).any(|d| self.slot(d).is_some());
                // 'A `run` ends at the next such depth or at h, and an empty one isn't written.'
                if self.done.loaded.is_empty() || events.is_empty() || over || end > self.h || (end < self.h && self.slot(end).is_none()) {
                    return Err(format!("a run from {depth} to {end}"));
                }
                self.current.extend(events);
                self.done.events += events.len() as u64;
                let saved = next.and_then(|c| if let Command::Save(j) = c { Some(*j) } else { None });
                if saved != self.slot(end) {
                    return Err(format!("at depth {end} slot {saved:?} is saved"));
                }
            }
            Command::Save(j) => {
                if *j == 0 || self.slot(depth) != Some(*j) || matches!(next, Some(Command::Save(_))) {
                    return Err(format!("slot {j} is saved at {depth}"));
                }
                self.slots.insert(*j, self.current.clone());
            }
        }
        Ok(())
    }
}

/// Runs a sheet of scenarios of h events with the spacing g, which isn't 0: what it does, or what is wrong with it.
pub fn run(sheet: &[u8], h: usize, g: u64) -> Result<Done, String> {
    let commands = commands(sheet)?;
    // 'slot 0 holds the start'
    let slots = HashMap::from([(0, vec![])]);
    let mut bench = Bench { current: vec![], slots, h, g, done: Done::default() };
    for (k, command) in commands.iter().enumerate() {
        bench.run(command, commands.get(k + 1)).map_err(|wrong| format!("line {}: {wrong}", k + 1))?;
    }
    if !commands.is_empty() {
        bench.arrive()?;
    }
    Ok(bench.done)
}

#[cfg(test)]
mod tests {
    use super::*;
    use crate::calls;

    /// A sheet with spaces for tabs and bars for line ends.
    fn done(lines: &str, h: usize, g: u64) -> Result<Done, String> {
        run(lines.replace(' ', "\t").replace('|', "\n").as_bytes(), h, g)
    }

    #[test]
    fn a_sheet_arrives() {
        let lines = "load 0|run 0 1|save 1|run 2 3|save 2|run 4|load 2|run 9|load 1|run 7 7|save 2|run 7|";
        let arrived = vec![vec![0, 1, 2, 3, 4], vec![0, 1, 2, 3, 9], vec![0, 1, 7, 7, 7]];
        assert_eq!(done(lines, 5, 2), Ok(Done { arrived, loaded: vec![0, 4, 2], events: 9 }));
        assert_eq!(done("load 0|load 0|", 0, 7), Ok(Done { arrived: vec![vec![]; 2], loaded: vec![0; 2], events: 0 }));
        assert_eq!(done("", 5, 2), Ok(Done::default()));
    }

    /// Each sheet has one thing wrong with it, at h 4 and g 2.
    #[test]
    fn what_is_wrong_is_noticed() {
        let good = "load 0|run 0 1|save 1|run 2 3|save 2|load 1|run 2 4|save 2|";
        assert!(done(good, 4, 2).is_ok());
        for (wrong, lines) in [
            ("the last line unended", "load 0|run 0 1|save 1|run 2 3|save 2"),
            ("line 1 of the sheet", "load|"),
            ("line 1 of the sheet", "load 00|"),
            ("line 1 of the sheet", "load  0|"),
            ("line 1 of the sheet", "lode 0|"),
            ("line 2 of the sheet", "load 0||"),
            ("line 2 of the sheet", "load 0|run 0 256|save 1|run 2 3|save 2|"),
            ("nothing in slot 1", "load 1|run 2 3|save 2|"),
            ("the loaded depth 0 is saved", "load 0|save 0|run 0 1|save 1|run 2 3|save 2|"),
            ("a run from 0 to 2", "run 0 1|save 1|run 2 3|save 2|"),
            ("a run from 0 to 0", "load 0|run|run 0 1|save 1|run 2 3|save 2|"),
            ("a run from 0 to 1", "load 0|run 0|run 1|save 1|run 2 3|save 2|"),
            ("a run from 0 to 4", "load 0|run 0 1 2 3|save 2|"),
            ("a run from 4 to 6", "load 0|run 0 1|save 1|run 2 3|save 2|run 4 5|save 3|"),
            ("at depth 2 slot None is saved", "load 0|run 0 1|run 2 3|save 2|"),
            ("at depth 4 slot None is saved", "load 0|run 0 1|save 1|run 2 3|"),
            ("at depth 2 slot Some(2) is saved", "load 0|run 0 1|save 2|run 2 3|save 2|"),
            ("slot 1 is saved at 2", "load 0|run 0 1|save 1|save 1|run 2 3|save 2|"),
            ("scenario 0 has 2 events", "load 0|run 0 1|save 1|load 1|run 2 4|save 2|"),
            ("scenario 0 has 2 events", "load 0|run 0 1|save 1|"),
            ("scenario 1 shares 3 events and is loaded at 0", "load 0|run 0 1|save 1|run 2 3|save 2|load 0|run 0 1|save 1|run 2 4|save 2|"),
            ("scenario 1 shares 4 events and is loaded at 2", "load 0|run 0 1|save 1|run 2 3|save 2|load 1|run 2 3|save 2|"),
        ] {
            let told = done(lines, 4, 2);
            assert!(told.as_ref().is_err_and(|told| told.ends_with(wrong)), "{lines}: {told:?}");
        }
    }

    /// The sheet that the README has as an example, by the C function.
    #[test]
    fn the_sheet_of_the_readme() {
        let mut out = [0; 300];
        let told = calls::sheet(&[0, 0, 1, 1, 0, 0, 0, 1, 1, 1, 0, 0, 0, 0, 0], 3, 5, 2, &mut out);
        let sheet = String::from_utf8_lossy(&out[..told.words[0] as usize]);
        assert!(told.number == 0 && include_str!("../../README.md").contains(&format!("```\n{sheet}```\n")), "{told:?}:\n{sheet}");
    }

    /// A number with commas between its thousands.
    fn grouped(n: u64) -> String {
        if n < 1000 {
            n.to_string()
        } else {
            format!("{},{:03}", grouped(n / 1000), n % 1000)
        }
    }

    /// What the README says of sheets by their g: the list of all scenarios of a rig, in order and shuffled from a seed, and its sheets, by the C functions.
    #[test]
    fn the_table_of_the_readme() {
        let (readme, ask) = (include_str!("../../README.md"), include_str!("../../examples/service_day.ask"));
        let (h, seed, rig) = (18, 2026, ask.split_once('\n').unwrap().1.as_bytes());
        let mut cells = vec![0; model::all_rows(h, model::read(rig).unwrap().joint_states())];
        let n = calls::count(rig, h as u64, &mut cells).words[0];
        let all = n as usize;
        let (mut draws, mut scratch, mut shuffled) = (vec![0; all], vec![0; 2 * all], vec![0; all]);
        assert_eq!(calls::draws(n, n, seed, 255, &mut draws).number, 0);
        assert_eq!(calls::shuffle(n, &draws, &mut scratch, &mut shuffled).number, 0);
        let lists = [(0..n).collect(), shuffled].map(|list| {
            let mut events = vec![0; all * h];
            assert_eq!(calls::scenarios(rig, h as u64, &list, &mut cells, &mut events).number, 0);
            events
        });
        let mut out = vec![0; all * (7 + 17 * h)];
        let rows = [1, 2, 3, 4, 5, 6, 9, 15, 18, 19].map(|g| {
            let mut row = vec![g, h as u64 / g];
            for events in &lists {
                let told = calls::sheet(events, n, h as u64, g, &mut out);
                assert_eq!(told.number, 0);
                row.extend([told.words[1], told.words[0]]);
            }
            format!("| {} |\n", row.into_iter().map(grouped).collect::<Vec<_>>().join(" | "))
        });
        let (said, table) = (format!("all {} scenarios", grouped(n)), rows.concat());
        assert!(
            readme.contains(&said) && readme.contains(&format!("|\n{table}\n")),
            "expected in the README: {said}, and the rows\n{table}"
        );
        assert!(readme.contains(&format!("h {h}, three days, that is {} events", grouped(n * h as u64))), "{} events in all", n * h as u64);
    }
}
