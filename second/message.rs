//! Messages as structures, their records, and how records become bytes.

use crate::kind::Pair;

/// The last time that an action, an entry or a clock can have.
pub const LAST_TIME: u32 = 4_000_000_000;

/// What the order of actions looks at, in the order in which it does.
#[derive(Clone, Copy, PartialEq, Eq, PartialOrd, Ord, Debug)]
pub struct Moment {
    pub time: u32,
    pub coordinator: u8,
    pub article: u8,
}

#[derive(Clone, Copy, PartialEq, Eq, Debug)]
pub struct Action {
    pub moment: Moment,
    pub transaction: u32,
    pub pair: Pair,
}

#[derive(Clone, Copy, PartialEq, Eq, Debug)]
pub struct Interval {
    pub site: u8,
    pub from: u32,
    pub to: u32,
}

impl Interval {
    pub fn holds(&self, moment: &Moment) -> bool {
        self.site == moment.coordinator && self.from < moment.time && moment.time <= self.to
    }
}

#[derive(Clone, PartialEq, Eq, Debug)]
pub struct Section {
    pub article: u8,
    pub intervals: Vec<Interval>,
    pub actions: Vec<Action>,
}

#[derive(Clone, PartialEq, Eq, Debug)]
pub struct Message {
    pub group: u16,
    pub kind: u8,
    pub sender: u8,
    pub sections: Vec<Section>,
}

impl Message {
    pub fn action_count(&self) -> usize {
        self.sections
            .iter()
            .map(|section| section.actions.len())
            .sum()
    }

    /// The records, with counts cut to what their fields can hold.
    pub fn records(&self) -> Vec<Record> {
        let mut records = vec![Record::Header {
            group: self.group,
            kind: self.kind,
            sender: self.sender,
            sections: u8::try_from(self.sections.len()).unwrap_or(u8::MAX),
        }];
        for section in &self.sections {
            records.push(Record::Section {
                article: section.article,
                intervals: u8::try_from(section.intervals.len()).unwrap_or(u8::MAX),
                actions: u16::try_from(section.actions.len()).unwrap_or(u16::MAX),
            });
            records.extend(section.intervals.iter().copied().map(Record::Interval));
            records.extend(section.actions.iter().copied().map(Record::Action));
        }
        records
    }

    pub fn bytes(&self) -> Vec<u8> {
        encode(&self.records())
    }

    /// Every interval with its section's article and its own offset in the bytes.
    pub fn placed_intervals(&self) -> Vec<(usize, u8, Interval)> {
        let mut found = Vec::new();
        let mut offset = 0;
        let mut article = 0;
        for record in self.records() {
            match record {
                Record::Section { article: next, .. } => article = next,
                Record::Interval(interval) => found.push((offset, article, interval)),
                Record::Header { .. } | Record::Action(_) => {}
            }
            offset += record.length();
        }
        found
    }
}

#[derive(Clone, Copy, PartialEq, Eq, Debug)]
pub enum Record {
    Header {
        group: u16,
        kind: u8,
        sender: u8,
        sections: u8,
    },
    Section {
        article: u8,
        intervals: u8,
        actions: u16,
    },
    Interval(Interval),
    Action(Action),
}

impl Record {
    pub fn length(&self) -> usize {
        match self {
            Record::Header { .. } => 6,
            Record::Section { .. } => 5,
            Record::Interval(_) => 10,
            Record::Action(_) => 16,
        }
    }

    pub fn write(&self, out: &mut Vec<u8>) {
        match *self {
            Record::Header {
                group,
                kind,
                sender,
                sections,
            } => {
                out.push(b'H');
                out.extend(group.to_be_bytes());
                out.extend([kind, sender, sections]);
            }
            Record::Section {
                article,
                intervals,
                actions,
            } => {
                out.extend([b'S', article, intervals]);
                out.extend(actions.to_be_bytes());
            }
            Record::Interval(Interval { site, from, to }) => {
                out.extend([b'I', site]);
                out.extend(from.to_be_bytes());
                out.extend(to.to_be_bytes());
            }
            Record::Action(Action {
                moment,
                transaction,
                pair,
            }) => {
                out.extend([b'A', moment.coordinator]);
                out.extend(moment.time.to_be_bytes());
                out.extend(transaction.to_be_bytes());
                out.extend([moment.article, pair.operation]);
                out.extend(pair.amount.to_be_bytes());
            }
        }
    }
}

pub fn encode(records: &[Record]) -> Vec<u8> {
    let mut out = Vec::with_capacity(records.iter().map(Record::length).sum());
    for record in records {
        record.write(&mut out);
    }
    out
}
