//! Checks of the program against itself: what the makers make is what they say, and the tables keep what the
//! rules say of every table.

use crate::cases::Cases;
use crate::coverage::Coverage;
use crate::examples;
use crate::kind::Kind;
use crate::message_maker::{frame, lawful, Size};
use crate::prng::Prng;
use crate::reader::{self, Answer};
use crate::refusal::Refusal;
use crate::script::{self, Line, Outcome, Program};
use crate::script_examples;
use crate::script_maker;
use crate::table::Table;
use crate::wrong_lines::wrong_line;

const SEED: u64 = 2_024;

/// Counts checks, and keeps what the failed ones were about.
#[derive(Default)]
pub struct Checks {
    made: usize,
    failed: Vec<String>,
}

impl Checks {
    pub fn check(&mut self, holds: bool, about: impl FnOnce() -> String) {
        self.made += 1;
        if !holds {
            self.failed.push(about());
        }
    }

    pub fn same<T: PartialEq + std::fmt::Debug>(&mut self, about: &str, found: T, wanted: T) {
        self.check(found == wanted, || {
            format!("{about}: {found:?}, not {wanted:?}")
        });
    }
}

pub fn run() -> Result<String, String> {
    let mut checks = Checks::default();
    examples::run(&mut checks);
    script_examples::run(&mut checks);
    lawful_messages(&mut checks);
    made_messages(&mut checks);
    wrong_lines(&mut checks);
    scripts(&mut checks);
    coverage(&mut checks);
    if checks.failed.is_empty() {
        Ok(format!("{} checks, all passed\n", checks.made))
    } else {
        let failed = checks.failed.len();
        let shown: Vec<&str> = checks.failed.iter().take(40).map(String::as_str).collect();
        Err(format!(
            "{}\n{failed} of {} checks failed",
            shown.join("\n"),
            checks.made
        ))
    }
}

/// Every message made lawful is read, and is the same message.
fn lawful_messages(checks: &mut Checks) {
    let mut prng = Prng::new(SEED);
    for number in 0..3_000 {
        let frame = frame(&mut prng);
        let size = match number % 1_000 {
            0 => Size::Most,
            1..=30 => Size::Large,
            31..=300 => Size::Small,
            _ => Size::Usual,
        };
        let message = lawful(&mut prng, &frame, size);
        let bytes = message.bytes();
        let length: usize = 6 + message
            .sections
            .iter()
            .map(|section| 5 + 10 * section.intervals.len() + 16 * section.actions.len())
            .sum::<usize>();
        checks.same("length of a lawful message", bytes.len(), length);
        let read = reader::read(&bytes, &frame);
        checks.check(read.as_ref() == Ok(&message), || {
            format!("lawful message {number}: {:?}", read.err())
        });
    }
}

/// The answers of which the maker is sure are those of the reader, and none is rare.
fn made_messages(checks: &mut Checks) {
    let wanted = 20_000;
    let mut refused = 0;
    let mut numbers = [0usize; 13];
    for (index, case) in Cases::new(SEED).take(wanted).enumerate() {
        let answer = case.question.answer();
        checks.check(case.sure.is_none_or(|sure| sure == answer), || {
            format!("message {index}: {answer}, not {:?}", case.sure)
        });
        let number = match answer {
            Answer::NoSuchFrame => 1,
            Answer::Granted(_) => continue,
            Answer::Refused(refusal) => refusal.number(),
        };
        refused += 1;
        if let Some(count) = numbers.get_mut(usize::from(number)) {
            *count += 1;
        }
    }
    checks.check(refused * 2 >= wanted, || {
        format!("only {refused} of {wanted} messages refused")
    });
    for number in [1, 9, 10, 11, 12] {
        let count = numbers.get(number).copied().unwrap_or(0);
        checks.check(count * 50 >= wanted, || {
            format!("refusal {number} only {count} times")
        });
    }
}

fn wrong_lines(checks: &mut Checks) {
    let mut prng = Prng::new(SEED);
    for _ in 0..5_000 {
        let line = wrong_line(&mut prng);
        let wrong = Line::parse(&line).is_none() && !line.contains(&10);
        checks.check(wrong, || format!("a wrong line is right: {line:?}"));
    }
}

/// Scripts meet no refusals but those that their letters can meet, and the tables stay sound.
fn scripts(checks: &mut Checks) {
    let mut granted = 0;
    let mut run = 0;
    for index in 0..200 {
        let bytes = script_maker::script(SEED, index);
        let mut program = Program::new();
        for (number, line) in script::lines(&bytes).enumerate() {
            let outcome = program.run_line(line);
            checks.check(can_meet(&outcome, number), || {
                format!("{index}:{number}: {outcome:?}")
            });
            checks.check(program.tables().iter().all(is_sound), || {
                format!("{index}:{number}: tables")
            });
            run += 1;
            granted += usize::from(matches!(outcome, Outcome::Granted { .. }));
        }
    }
    checks.check(granted * 2 > run, || {
        format!("only {granted} of {run} lines granted")
    });
}

/// Each class of line and of input is in one script of a hundred at least.
fn coverage(checks: &mut Checks) {
    let mut coverage = Coverage::new();
    for index in 0..1_000 {
        coverage.add(&script_maker::script(SEED, index));
    }
    for class in coverage.rare() {
        checks.check(false, || format!("rare in scripts: {class}"));
    }
}

fn can_meet(outcome: &Outcome, number: usize) -> bool {
    match *outcome {
        Outcome::Granted { .. } => true,
        Outcome::Wrong { refusal } => refusal == Refusal::WrongLine(number),
        Outcome::Refused { letter, refusal } => {
            let lawful: &[u8] = match letter {
                'M' => &[4, 16],
                'O' | 'P' => &[4, 5],
                'T' => &[9, 13, 16],
                'F' => &[4],
                _ => &[],
            };
            lawful.contains(&refusal.number())
        }
    }
}

/// What holds of every table, as far as this program does not hold it by its making.
fn is_sound(table: &Table) -> bool {
    let own = table.own();
    let entry = |article, has, of| table.known(article, has, of).unwrap_or(u32::MAX);
    let history_sound = table.history().all(|action| {
        let moment = action.moment;
        moment.coordinator < 3
            && moment.article < 4
            && (1..=moment.time).contains(&action.transaction)
            && Kind::OnHand.knows(action.pair)
            && moment.time <= entry(moment.article, own, moment.coordinator)
    });
    let entries_sound = (0..4).all(|article| {
        (0..3).all(|of| {
            let own_entry = entry(article, own, of);
            own_entry <= table.clock() && (0..3).all(|has| entry(article, has, of) <= own_entry)
        })
    });
    history_sound && entries_sound && table.history().count() <= script::CAPACITY
}
