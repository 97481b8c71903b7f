//! What a set of scripts covers: in how many scripts each class of line or input comes up, and how often.

use std::collections::{BTreeMap, BTreeSet};

use crate::reader;
use crate::script::{self, Line, Outcome, Program, CAPACITY, FRAME, INPUT_LIMIT};

/// All classes that a script can have. That a set of scripts lacks one shows as a 0. `T` refused by 14 is none:
/// no table of a script claims more of a site's actions than that site has committed.
const CLASSES: [&str; 44] = [
    "F granted",
    "F granted, below 0",
    "F refused 4",
    "M granted",
    "M granted, and the history is full",
    "M refused 16",
    "M refused 4",
    "O granted, 64 actions",
    "O granted, no actions",
    "O granted, some actions",
    "O refused 4",
    "O refused 5",
    "P granted, 0",
    "P granted, 1",
    "P refused 4",
    "P refused 5",
    "T granted, all actions new",
    "T granted, and the history is full",
    "T granted, none new: it has none",
    "T granted, none new: this site has them from other messages",
    "T granted, none new: this site took this message before",
    "T granted, some actions new",
    "T refused 13",
    "T refused 16",
    "T refused 9",
    "input: a line cut by the limit, and right",
    "input: a line cut by the limit, and wrong",
    "input: as long as the limit",
    "input: empty",
    "input: longer than the limit",
    "input: no end after the last line",
    "wrong: acting site above 2",
    "wrong: another first byte",
    "wrong: carriage return too many",
    "wrong: empty",
    "wrong: no digit",
    "wrong: no sign",
    "wrong: small letter",
    "wrong: too long",
    "wrong: too short, F",
    "wrong: too short, M",
    "wrong: too short, O",
    "wrong: too short, P",
    "wrong: too short, T",
];

#[derive(Clone, Copy, Default)]
struct Count {
    scripts: usize,
    times: usize,
}

pub struct Coverage {
    scripts: usize,
    by_class: BTreeMap<String, Count>,
}

impl Coverage {
    pub fn new() -> Coverage {
        Coverage {
            scripts: 0,
            by_class: CLASSES
                .map(|class| (class.to_string(), Count::default()))
                .into(),
        }
    }

    pub fn add(&mut self, script: &[u8]) {
        let mut times: BTreeMap<String, usize> = BTreeMap::new();
        let mut run = Run {
            program: Program::new(),
            taken: BTreeSet::new(),
        };
        let lines = script::lines(script).flat_map(|line| run.classes(line));
        for class in input_classes(script).into_iter().chain(lines) {
            *times.entry(class).or_insert(0) += 1;
        }
        self.scripts += 1;
        for (class, times) in times {
            let count = self.by_class.entry(class).or_default();
            count.scripts += 1;
            count.times += times;
        }
    }

    /// The classes that fewer than one script in a hundred has.
    pub fn rare(&self) -> Vec<&str> {
        self.by_class
            .iter()
            .filter(|(_, count)| count.scripts * 100 < self.scripts)
            .map(|(class, _)| class.as_str())
            .collect()
    }

    pub fn account(&self) -> String {
        let classes = self.by_class.iter().map(|(class, count)| {
            let Count { scripts, times } = count;
            format!("{scripts:>7} {times:>8}  {class}\n")
        });
        format!(
            "scripts    times  of {} scripts\n{}",
            self.scripts,
            classes.collect::<String>()
        )
    }
}

/// A script as it is run, line by line.
struct Run {
    program: Program,
    /// Which site took which message.
    taken: BTreeSet<(u8, Vec<u8>)>,
}

impl Run {
    fn classes(&mut self, bytes: &[u8]) -> Vec<String> {
        let line = Line::parse(bytes);
        let message = match line {
            Some(Line::Take { slot, .. }) => self.program.slot(slot).to_vec(),
            _ => Vec::new(),
        };
        match (line, self.program.run_line(bytes)) {
            (None, _) => vec![format!("wrong: {}", why_wrong(bytes))],
            (Some(line), Outcome::Granted { letter, answer }) => {
                let what = self.granted(line, answer, message);
                let mut found = vec![format!("{letter} granted{what}")];
                if self.fills(line, answer) {
                    found.push(format!("{letter} granted, and the history is full"));
                }
                found
            }
            (Some(_), refused) => vec![refused.to_string()],
        }
    }

    fn granted(&mut self, line: Line, answer: i64, message: Vec<u8>) -> &'static str {
        match (line, answer) {
            (Line::Movement { .. }, _) => "",
            (Line::Offer { .. }, 41) => ", no actions",
            (Line::Offer { .. }, 1_065) => ", 64 actions",
            (Line::Offer { .. }, _) => ", some actions",
            (Line::Take { site, .. }, _) => {
                let read = reader::read(&message, &FRAME);
                let carried = read.map_or(0, |message| message.action_count() as i64);
                match (answer, self.taken.insert((site, message))) {
                    (0, false) => ", none new: this site took this message before",
                    (0, true) if carried == 0 => ", none new: it has none",
                    (0, true) => ", none new: this site has them from other messages",
                    _ if answer < carried => ", some actions new",
                    _ => ", all actions new",
                }
            }
            (Line::Figure { .. }, _) if answer < 0 => ", below 0",
            (Line::Figure { .. }, _) => "",
            (Line::OpenItem { .. }, 0) => ", 0",
            (Line::OpenItem { .. }, _) => ", 1",
        }
    }

    /// Whether a granted line took the last place of a history.
    fn fills(&self, line: Line, answer: i64) -> bool {
        let inserts = match line {
            Line::Movement { .. } => true,
            Line::Take { .. } => answer > 0,
            _ => false,
        };
        let table = self.program.tables().get(usize::from(line.site()));
        inserts && table.is_some_and(|table| table.history().count() == CAPACITY)
    }
}

fn input_classes(script: &[u8]) -> Vec<String> {
    let mut found = Vec::new();
    if script.is_empty() {
        found.push("input: empty");
    }
    if script.last().is_some_and(|byte| *byte != b'\n') {
        found.push("input: no end after the last line");
    }
    if script.len() == INPUT_LIMIT {
        found.push("input: as long as the limit");
    }
    if let (Some(counted), Some(next)) = (script.get(..INPUT_LIMIT), script.get(INPUT_LIMIT)) {
        found.push("input: longer than the limit");
        let line = counted.rsplit(|byte| *byte == b'\n').next();
        // Some bytes of the line count, and some do not.
        if let (Some(line @ [_, ..]), true) = (line, *next != b'\n') {
            found.push(match Line::parse(line) {
                Some(_) => "input: a line cut by the limit, and right",
                None => "input: a line cut by the limit, and wrong",
            });
        }
    }
    found.into_iter().map(String::from).collect()
}

/// In which way a wrong line is wrong, the first one if there are more.
fn why_wrong(line: &[u8]) -> &'static str {
    let Some((letter, fields)) = line.split_first() else {
        return "empty";
    };
    let (length, short) = match letter {
        b'M' => (11, "too short, M"),
        b'O' => (5, "too short, O"),
        b'T' => (3, "too short, T"),
        b'F' => (3, "too short, F"),
        b'P' => (4, "too short, P"),
        b'm' | b'o' | b't' | b'f' | b'p' => return "small letter",
        _ => return "another first byte",
    };
    if line.len() < length {
        return short;
    }
    if line.len() == length + 1 && line.ends_with(b"\r") {
        return "carriage return too many";
    }
    if line.len() > length {
        return "too long";
    }
    let sign = if *letter == b'M' { fields.get(2) } else { None };
    if sign.is_some_and(|sign| !b"+-".contains(sign)) {
        return "no sign";
    }
    let digits = fields.iter().filter(|byte| byte.is_ascii_digit()).count();
    if digits + usize::from(sign.is_some()) < fields.len() {
        return "no digit";
    }
    "acting site above 2"
}
