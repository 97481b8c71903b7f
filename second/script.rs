//! The line language: three tables and ten slots, played by a script.

use std::fmt;

use crate::kind::{Kind, Pair};
use crate::reader::Frame;
use crate::refusal::Refusal;
use crate::table::Table;

/// Only so many bytes of a script count.
pub const INPUT_LIMIT: usize = 32_768;
pub const SLOTS: usize = 10;
/// How many places each history has.
pub const CAPACITY: usize = 64;

const SLOT_ROOM: usize = 1_200;
pub const FRAME: Frame = Frame {
    group: 1,
    kind: Kind::OnHand,
    sites: 3,
    articles: 4,
};

#[derive(Clone, Copy, PartialEq, Eq, Debug)]
pub enum Line {
    Movement {
        site: u8,
        article: u8,
        amount: i32,
        slot: u8,
    },
    Offer {
        site: u8,
        peer: u8,
        article: u8,
        slot: u8,
    },
    Take {
        site: u8,
        slot: u8,
    },
    Figure {
        site: u8,
        article: u8,
    },
    OpenItem {
        site: u8,
        peer: u8,
        article: u8,
    },
}

impl Line {
    /// The line that these bytes are, or nothing if they are a wrong line.
    pub fn parse(bytes: &[u8]) -> Option<Line> {
        let line = match *bytes {
            [b'M', site, article, sign, d5, d4, d3, d2, d1, d0, slot] => Line::Movement {
                site: acting(site)?,
                article: digit(article)?,
                amount: signed(sign, [d5, d4, d3, d2, d1, d0])?,
                slot: digit(slot)?,
            },
            [b'O', site, peer, article, slot] => Line::Offer {
                site: acting(site)?,
                peer: digit(peer)?,
                article: digit(article)?,
                slot: digit(slot)?,
            },
            [b'T', site, slot] => Line::Take {
                site: acting(site)?,
                slot: digit(slot)?,
            },
            [b'F', site, article] => Line::Figure {
                site: acting(site)?,
                article: digit(article)?,
            },
            [b'P', site, peer, article] => Line::OpenItem {
                site: acting(site)?,
                peer: digit(peer)?,
                article: digit(article)?,
            },
            _ => return None,
        };
        Some(line)
    }

    pub fn letter(&self) -> char {
        match self {
            Line::Movement { .. } => 'M',
            Line::Offer { .. } => 'O',
            Line::Take { .. } => 'T',
            Line::Figure { .. } => 'F',
            Line::OpenItem { .. } => 'P',
        }
    }

    pub fn site(&self) -> u8 {
        match *self {
            Line::Movement { site, .. }
            | Line::Offer { site, .. }
            | Line::Take { site, .. }
            | Line::Figure { site, .. }
            | Line::OpenItem { site, .. } => site,
        }
    }
}

/// The form in which a script has the line.
impl fmt::Display for Line {
    fn fmt(&self, out: &mut fmt::Formatter<'_>) -> fmt::Result {
        match *self {
            Line::Movement {
                site,
                article,
                amount,
                slot,
            } => {
                write!(out, "M{site}{article}{amount:+07}{slot}")
            }
            Line::Offer {
                site,
                peer,
                article,
                slot,
            } => write!(out, "O{site}{peer}{article}{slot}"),
            Line::Take { site, slot } => write!(out, "T{site}{slot}"),
            Line::Figure { site, article } => write!(out, "F{site}{article}"),
            Line::OpenItem {
                site,
                peer,
                article,
            } => write!(out, "P{site}{peer}{article}"),
        }
    }
}

fn digit(byte: u8) -> Option<u8> {
    byte.is_ascii_digit().then(|| byte - b'0')
}

fn acting(byte: u8) -> Option<u8> {
    digit(byte).filter(|site| *site < FRAME.sites)
}

fn signed(sign: u8, digits: [u8; 6]) -> Option<i32> {
    let mut amount = 0;
    for byte in digits {
        amount = amount * 10 + i32::from(digit(byte)?);
    }
    match sign {
        b'+' => Some(amount),
        b'-' => Some(-amount),
        _ => None,
    }
}

/// What became of a line; its form is what the sheet has of it.
#[derive(Clone, Copy, PartialEq, Eq, Debug)]
pub enum Outcome {
    Granted { letter: char, answer: i64 },
    Refused { letter: char, refusal: Refusal },
    Wrong { refusal: Refusal },
}

impl fmt::Display for Outcome {
    fn fmt(&self, out: &mut fmt::Formatter<'_>) -> fmt::Result {
        match self {
            Outcome::Granted { letter, answer } => write!(out, "{letter} {answer}"),
            Outcome::Refused { letter, refusal } => {
                write!(out, "{letter} refused {}", refusal.number())
            }
            Outcome::Wrong { refusal } => write!(out, "? refused {}", refusal.number()),
        }
    }
}

pub struct Program {
    lines_run: usize,
    tables: [Table; FRAME.sites as usize],
    slots: [Vec<u8>; SLOTS],
}

impl Program {
    pub fn new() -> Program {
        Program {
            lines_run: 0,
            tables: [0, 1, 2].map(|own| Table::new(FRAME, own, CAPACITY)),
            slots: Default::default(),
        }
    }

    pub fn tables(&self) -> &[Table] {
        &self.tables
    }

    pub fn slot(&self, slot: u8) -> &[u8] {
        self.slots
            .get(usize::from(slot))
            .map_or(&[], |message| message.as_slice())
    }

    pub fn run_line(&mut self, bytes: &[u8]) -> Outcome {
        let wrong = Outcome::Wrong {
            refusal: Refusal::WrongLine(self.lines_run),
        };
        self.lines_run += 1;
        let Some(line) = Line::parse(bytes) else {
            return wrong;
        };
        let Some(table) = self.tables.get_mut(usize::from(line.site())) else {
            return wrong;
        };
        let letter = line.letter();
        match run_call(table, &mut self.slots, line) {
            Ok(answer) => Outcome::Granted { letter, answer },
            Err(refusal) => Outcome::Refused { letter, refusal },
        }
    }
}

fn run_call(table: &mut Table, slots: &mut [Vec<u8>; SLOTS], line: Line) -> Result<i64, Refusal> {
    match line {
        Line::Movement {
            article,
            amount,
            slot,
            ..
        } => {
            let (time, message) = post(table, article, amount)?;
            store(slots, slot, message);
            Ok(i64::from(time))
        }
        Line::Offer {
            peer,
            article,
            slot,
            ..
        } => {
            let message = table.offer(peer, article, SLOT_ROOM)?;
            let length = message.len();
            store(slots, slot, Some(message));
            Ok(length as i64)
        }
        Line::Take { slot, .. } => {
            let message = slots.get(usize::from(slot)).map_or(&[][..], Vec::as_slice);
            Ok(table.take(message)? as i64)
        }
        Line::Figure { article, .. } => table.figure(article),
        Line::OpenItem { peer, article, .. } => Ok(i64::from(table.open_item(article, peer)?)),
    }
}

/// One movement as a transaction of its own: the time of the write, and the message.
fn post(table: &mut Table, article: u8, amount: i32) -> Result<(u32, Option<Vec<u8>>), Refusal> {
    table.open()?;
    let written = table.write(
        article,
        Pair {
            operation: 1,
            amount,
        },
    );
    let posted = written.and_then(|time| Ok((time, table.commit(SLOT_ROOM)?.message)));
    if posted.is_err() {
        table.abandon()?;
    }
    posted
}

fn store(slots: &mut [Vec<u8>; SLOTS], slot: u8, message: Option<Vec<u8>>) {
    if let (Some(place), Some(message)) = (slots.get_mut(usize::from(slot)), message) {
        *place = message;
    }
}

/// The lines of an input, without the bytes that end them.
pub fn lines(input: &[u8]) -> impl Iterator<Item = &[u8]> {
    let counted = input.get(..INPUT_LIMIT).unwrap_or(input);
    let ended = counted.strip_suffix(b"\n").unwrap_or(counted);
    let none = counted.is_empty();
    ended.split(|byte| *byte == b'\n').filter(move |_| !none)
}

/// Runs a whole script.
pub fn run(input: &[u8]) -> Vec<Outcome> {
    let mut program = Program::new();
    lines(input).map(|line| program.run_line(line)).collect()
}

/// The bytes that a script prints.
pub fn sheet(outcomes: &[Outcome]) -> Vec<u8> {
    outcomes
        .iter()
        .flat_map(|outcome| format!("{outcome}\n").into_bytes())
        .collect()
}
