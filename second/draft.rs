//! A lawful message laid out as records, so that it can be damaged.

use std::ops::Range;

use crate::message::{encode, Action, Interval, Message, Record};
use crate::prng::Prng;
use crate::reader::{Answer, Frame};
use crate::refusal::Refusal;

/// Which records a section has, as places in the row of records.
#[derive(Clone, PartialEq, Eq, Debug)]
pub struct Span {
    pub head: usize,
    pub intervals: Range<usize>,
    pub actions: Range<usize>,
    pub last: bool,
}

#[derive(Clone, Debug)]
pub struct Draft {
    pub frame: Frame,
    pub message: Message,
    pub records: Vec<Record>,
    pub spans: Vec<Span>,
}

impl Draft {
    pub fn new(frame: Frame, message: Message) -> Draft {
        let mut spans = Vec::new();
        let mut head = 1;
        for (number, section) in message.sections.iter().enumerate() {
            let intervals = head + 1..head + 1 + section.intervals.len();
            let actions = intervals.end..intervals.end + section.actions.len();
            let next = actions.end;
            spans.push(Span {
                head,
                intervals,
                actions,
                last: number + 1 == message.sections.len(),
            });
            head = next;
        }
        Draft {
            frame,
            records: message.records(),
            spans,
            message,
        }
    }

    pub fn bytes(&self) -> Vec<u8> {
        encode(&self.records)
    }

    /// The offset of the record at this place, or the length if there is none.
    pub fn offset(&self, place: usize) -> usize {
        self.records.iter().take(place).map(Record::length).sum()
    }

    pub fn broken(&self, place: usize) -> Option<Answer> {
        Some(Answer::Refused(Refusal::BrokenRule(self.offset(place))))
    }

    pub fn not_due(&self, place: usize) -> Option<Answer> {
        Some(Answer::Refused(Refusal::NotDue(self.offset(place))))
    }

    pub fn bytes_left(&self, place: usize) -> Option<Answer> {
        Some(Answer::Refused(Refusal::BytesLeft(self.offset(place))))
    }

    pub fn granted(&self) -> Option<Answer> {
        Some(Answer::Granted(self.message.action_count()))
    }

    pub fn any_span(&self, prng: &mut Prng) -> Option<Span> {
        self.spans.get(prng.index(self.spans.len())).cloned()
    }

    /// An interval's place, and the span that it belongs to.
    pub fn any_interval(&self, prng: &mut Prng) -> Option<(usize, Span)> {
        let span = self.any_span(prng)?;
        Some((
            span.intervals.start + prng.index(span.intervals.len()),
            span,
        ))
    }

    /// An action's place, and the span that it belongs to, among sections that have actions.
    pub fn any_action(&self, prng: &mut Prng) -> Option<(usize, Span)> {
        let spans: Vec<&Span> = self
            .spans
            .iter()
            .filter(|span| !span.actions.is_empty())
            .collect();
        let span = prng.pick_from(&spans)?.clone();
        Some((span.actions.start + prng.index(span.actions.len()), span))
    }

    pub fn interval(&self, place: usize) -> Option<Interval> {
        match self.records.get(place) {
            Some(Record::Interval(interval)) => Some(*interval),
            _ => None,
        }
    }

    pub fn action(&self, place: usize) -> Option<Action> {
        match self.records.get(place) {
            Some(Record::Action(action)) => Some(*action),
            _ => None,
        }
    }

    pub fn article(&self, span: &Span) -> Option<u8> {
        match self.records.get(span.head) {
            Some(Record::Section { article, .. }) => Some(*article),
            _ => None,
        }
    }

    pub fn edit_header(&mut self, edit: impl FnOnce(&mut u16, &mut u8, &mut u8, &mut u8)) {
        if let Some(Record::Header {
            group,
            kind,
            sender,
            sections,
        }) = self.records.first_mut()
        {
            edit(group, kind, sender, sections);
        }
    }

    pub fn edit_section(&mut self, place: usize, edit: impl FnOnce(&mut u8, &mut u8, &mut u16)) {
        if let Some(Record::Section {
            article,
            intervals,
            actions,
        }) = self.records.get_mut(place)
        {
            edit(article, intervals, actions);
        }
    }

    pub fn edit_interval(&mut self, place: usize, edit: impl FnOnce(&mut Interval)) {
        if let Some(Record::Interval(interval)) = self.records.get_mut(place) {
            edit(interval);
        }
    }

    pub fn edit_action(&mut self, place: usize, edit: impl FnOnce(&mut Action)) {
        if let Some(Record::Action(action)) = self.records.get_mut(place) {
            edit(action);
        }
    }
}
