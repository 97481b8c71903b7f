//! Reading bytes as a message, and the answer that the call for C would give.

use std::fmt;

use crate::kind::{Kind, Pair};
use crate::message::{Action, Interval, Message, Moment, Section, LAST_TIME};
use crate::refusal::Refusal;

/// What bytes are read for. The fields are within their limits.
#[derive(Clone, Copy, PartialEq, Eq, Debug)]
pub struct Frame {
    pub group: u16,
    pub kind: Kind,
    pub sites: u8,
    pub articles: u8,
}

impl Frame {
    pub fn new(group: u32, kind: u32, sites: u32, articles: u32) -> Option<Frame> {
        Some(Frame {
            group: within(group, 1, u16::MAX)?,
            kind: Kind::from_number(kind)?,
            sites: within(sites, 2, 8)?,
            articles: within(articles, 1, 64)?,
        })
    }
}

fn within<T: TryFrom<u32> + PartialOrd>(number: u32, least: T, most: T) -> Option<T> {
    T::try_from(number)
        .ok()
        .filter(|number| (least..=most).contains(number))
}

/// A message to be checked, and what it is to be read for, lawful or not.
#[derive(Clone, PartialEq, Eq, Debug)]
pub struct Question {
    pub group: u32,
    pub kind: u32,
    pub sites: u32,
    pub articles: u32,
    pub bytes: Vec<u8>,
}

impl Question {
    pub fn answer(&self) -> Answer {
        match Frame::new(self.group, self.kind, self.sites, self.articles) {
            None => Answer::NoSuchFrame,
            Some(frame) => match read(&self.bytes, &frame) {
                Ok(message) => Answer::Granted(message.action_count()),
                Err(refusal) => Answer::Refused(refusal),
            },
        }
    }
}

#[derive(Clone, Copy, PartialEq, Eq, Debug)]
pub enum Answer {
    NoSuchFrame,
    Granted(usize),
    Refused(Refusal),
}

/// The number that the call for C answers and the place of the refusal, `-` if there is none.
impl fmt::Display for Answer {
    fn fmt(&self, out: &mut fmt::Formatter<'_>) -> fmt::Result {
        match self {
            Answer::NoSuchFrame => write!(out, "-1 -"),
            Answer::Granted(actions) => write!(out, "{actions} -"),
            Answer::Refused(refusal) => write!(out, "-{} {}", refusal.number(), refusal.place()),
        }
    }
}

/// Reads a message, or answers the first refusal that the bytes meet.
pub fn read(bytes: &[u8], frame: &Frame) -> Result<Message, Refusal> {
    let mut cursor = Cursor { bytes, at: 0 };
    let (offset, [_, high, low, kind, sender, count]) = cursor.record(b'H')?;
    let group = u16::from_be_bytes([high, low]);
    if group != frame.group || kind != frame.kind.number() {
        return Err(Refusal::Foreign);
    }
    keeps((1..=16).contains(&count) && sender < frame.sites, offset)?;

    let mut sections: Vec<Section> = Vec::new();
    for _ in 0..count {
        let before = sections.last().map(|section| section.article);
        sections.push(read_section(&mut cursor, frame, before)?);
    }
    if cursor.at < bytes.len() {
        return Err(Refusal::BytesLeft(cursor.at));
    }
    Ok(Message {
        group,
        kind,
        sender,
        sections,
    })
}

fn read_section(
    cursor: &mut Cursor,
    frame: &Frame,
    before: Option<u8>,
) -> Result<Section, Refusal> {
    let (offset, [_, article, interval_count, high, low]) = cursor.record(b'S')?;
    keeps(
        article < frame.articles
            && before.is_none_or(|before| before < article)
            && (1..=frame.sites).contains(&interval_count),
        offset,
    )?;

    let mut section = Section {
        article,
        intervals: Vec::new(),
        actions: Vec::new(),
    };
    for _ in 0..interval_count {
        let interval = read_interval(cursor, frame, section.intervals.last())?;
        section.intervals.push(interval);
    }
    for _ in 0..u16::from_be_bytes([high, low]) {
        let action = read_action(cursor, frame, &section)?;
        section.actions.push(action);
    }
    Ok(section)
}

fn read_interval(
    cursor: &mut Cursor,
    frame: &Frame,
    before: Option<&Interval>,
) -> Result<Interval, Refusal> {
    let (offset, [_, site, f0, f1, f2, f3, t0, t1, t2, t3]) = cursor.record(b'I')?;
    let from = u32::from_be_bytes([f0, f1, f2, f3]);
    let to = u32::from_be_bytes([t0, t1, t2, t3]);
    keeps(
        site < frame.sites
            && before.is_none_or(|before| before.site < site)
            && from <= to
            && to <= LAST_TIME,
        offset,
    )?;
    Ok(Interval { site, from, to })
}

fn read_action(cursor: &mut Cursor, frame: &Frame, section: &Section) -> Result<Action, Refusal> {
    let (offset, bytes) = cursor.record(b'A')?;
    let [_, coordinator, t0, t1, t2, t3, n0, n1, n2, n3, article, operation, a0, a1, a2, a3] =
        bytes;
    let time = u32::from_be_bytes([t0, t1, t2, t3]);
    let transaction = u32::from_be_bytes([n0, n1, n2, n3]);
    let moment = Moment {
        time,
        coordinator,
        article,
    };
    let pair = Pair {
        operation,
        amount: i32::from_be_bytes([a0, a1, a2, a3]),
    };
    keeps(
        article == section.article
            && section
                .intervals
                .iter()
                .any(|interval| interval.holds(&moment))
            && (1..=time).contains(&transaction)
            && frame.kind.knows(pair)
            && section
                .actions
                .last()
                .is_none_or(|before| before.moment < moment),
        offset,
    )?;
    Ok(Action {
        moment,
        transaction,
        pair,
    })
}

fn keeps(rules: bool, offset: usize) -> Result<(), Refusal> {
    if rules {
        Ok(())
    } else {
        Err(Refusal::BrokenRule(offset))
    }
}

struct Cursor<'a> {
    bytes: &'a [u8],
    at: usize,
}

impl Cursor<'_> {
    /// The offset and the bytes of the record that is due, which has `N` bytes and this kind byte.
    fn record<const N: usize>(&mut self, kind_byte: u8) -> Result<(usize, [u8; N]), Refusal> {
        let offset = self.at;
        let record = self
            .bytes
            .get(offset..)
            .and_then(|rest| rest.first_chunk::<N>())
            .filter(|record| record.first() == Some(&kind_byte))
            .ok_or(Refusal::NotDue(offset))?;
        self.at = offset + N;
        Ok((offset, *record))
    }
}
