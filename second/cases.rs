//! The row of messages that `second messages` makes: lawful ones, and damaged ones of every sort.

use std::collections::VecDeque;

use crate::damage_actions::{ACTIONS, SHAPES};
use crate::damage_heads::HEADS;
use crate::draft::Draft;
use crate::kind::Kind;
use crate::message::Record;
use crate::message_maker::{frame, lawful, Size};
use crate::prng::Prng;
use crate::reader::{Answer, Frame, Question};
use crate::refusal::Refusal;

/// A question, and the answer where the making of it leaves no doubt.
#[derive(Clone, PartialEq, Eq, Debug)]
pub struct Case {
    pub question: Question,
    pub sure: Option<Answer>,
}

impl Case {
    fn new(frame: &Frame, bytes: Vec<u8>, sure: Option<Answer>) -> Case {
        let question = Question {
            group: u32::from(frame.group),
            kind: u32::from(frame.kind.number()),
            sites: u32::from(frame.sites),
            articles: u32::from(frame.articles),
            bytes,
        };
        Case { question, sure }
    }
}

/// An endless row of cases. Two of five come from small messages of which each length is cut and each
/// byte is changed; the others stand alone.
pub struct Cases {
    prng: Prng,
    made: usize,
    swept: VecDeque<Case>,
}

impl Cases {
    pub fn new(seed: u64) -> Cases {
        Cases {
            prng: Prng::new(seed),
            made: 0,
            swept: VecDeque::new(),
        }
    }
}

impl Iterator for Cases {
    type Item = Case;

    fn next(&mut self) -> Option<Case> {
        let number = self.made;
        self.made += 1;
        if number % 5 < 3 {
            return Some(single(&mut self.prng));
        }
        if self.swept.is_empty() {
            self.swept = sweep(&mut self.prng).into();
        }
        self.swept.pop_front()
    }
}

/// Every cut and every byte changed, of one small message, in mixed order.
fn sweep(prng: &mut Prng) -> Vec<Case> {
    let frame = frame(prng);
    let draft = Draft::new(frame, lawful(prng, &frame, Size::Small));
    let bytes = draft.bytes();
    let mut cases = vec![Case::new(&frame, bytes.clone(), draft.granted())];
    for length in 0..bytes.len() {
        let (cut, sure) = cut(&draft, &bytes, length);
        cases.push(Case::new(&frame, cut, sure));
    }
    for (place, old) in bytes.iter().enumerate() {
        let other = prng.byte(0, 255);
        let mut values = vec![
            old.wrapping_add(1),
            old.wrapping_sub(1),
            old ^ 0x80,
            0x00,
            0xFF,
            b'A',
            b'I',
            other,
        ];
        values.sort_unstable();
        values.dedup();
        for value in values.into_iter().filter(|value| value != old) {
            let mut changed = bytes.clone();
            if let Some(there) = changed.get_mut(place) {
                *there = value;
            }
            cases.push(Case::new(&frame, changed, None));
        }
    }
    for place in (1..cases.len()).rev() {
        cases.swap(place, prng.index(place + 1));
    }
    cases
}

/// The first bytes of a lawful message: the record that the cut meets is not whole.
fn cut(draft: &Draft, bytes: &[u8], length: usize) -> (Vec<u8>, Option<Answer>) {
    let mut offset = 0;
    for record in &draft.records {
        if offset + record.length() > length {
            break;
        }
        offset += record.length();
    }
    let cut = bytes.get(..length).unwrap_or(bytes).to_vec();
    (cut, Some(Answer::Refused(Refusal::NotDue(offset))))
}

/// One message, lawful or damaged in one way or two.
fn single(prng: &mut Prng) -> Case {
    let size = match prng.below(4_000) {
        0 => Size::Most,
        1..=60 => Size::Large,
        61..=1_000 => Size::Small,
        _ => Size::Usual,
    };
    let frame = frame(prng);
    let draft = Draft::new(frame, lawful(prng, &frame, size));
    match prng.below(100) {
        0..=25 => Case::new(&frame, draft.bytes(), draft.granted()),
        26..=61 => damaged(prng, draft),
        62..=69 => appended(prng, &draft),
        70..=74 => {
            let bytes = draft.bytes();
            let length = prng.index(bytes.len());
            let (cut, sure) = cut(&draft, &bytes, length);
            Case::new(&frame, cut, sure)
        }
        75..=78 => kind_byte(prng, &draft),
        79..=84 => no_such_frame(prng, &draft),
        85..=90 => other_frame(prng, &draft),
        91..=94 => two_records(prng, draft),
        95..=97 => bytes_changed(prng, &draft),
        _ => noise(prng, &frame),
    }
}

/// Damage of a known answer; and after a broken rule, perhaps more damage that must not be seen.
fn damaged(prng: &mut Prng, lawful: Draft) -> Case {
    for _ in 0..10 {
        let mut draft = lawful.clone();
        let damage = match prng.below(20) {
            0..=8 => prng.pick(HEADS),
            9..=15 => prng.pick(ACTIONS),
            _ => prng.pick(SHAPES),
        };
        let Some(sure) = damage(&mut draft, prng) else {
            continue;
        };
        let mut bytes = draft.bytes();
        if let Answer::Refused(Refusal::BrokenRule(place)) = sure {
            let length = bytes.len();
            match prng.below(6) {
                0 => bytes.truncate(length.min(place + 16 + prng.index(length))),
                1 => bytes.push(prng.byte(0, 255)),
                2 => bytes.extend(lawful.bytes()),
                _ => {}
            }
        }
        return Case::new(&draft.frame, bytes, Some(sure));
    }
    Case::new(&lawful.frame, lawful.bytes(), lawful.granted())
}

fn appended(prng: &mut Prng, draft: &Draft) -> Case {
    let mut bytes = draft.bytes();
    match prng.below(5) {
        0 => bytes.push(prng.pick([0, 10, b'A', b'H', b'I', b'S', 255])),
        1 => bytes.extend_from_within(..),
        2 => {
            let mut last = Vec::new();
            if let Some(record) = draft.records.last() {
                record.write(&mut last);
            }
            bytes.extend(last);
        }
        _ => {
            let count = 1 + prng.index(40);
            bytes.extend((0..count).map(|_| prng.byte(0, 255)));
        }
    }
    Case::new(&draft.frame, bytes, draft.bytes_left(draft.records.len()))
}

/// A record that is whole but has another kind byte.
fn kind_byte(prng: &mut Prng, draft: &Draft) -> Case {
    let mut bytes = draft.bytes();
    let place = prng.index(draft.records.len());
    let others = [b'A', b'H', b'I', b'S', b'a', b'h', b'i', b's', 0, 255];
    if let Some(there) = bytes.get_mut(draft.offset(place)) {
        let others: Vec<u8> = others.into_iter().filter(|other| other != there).collect();
        *there = prng.pick_from(&others).unwrap_or(0);
    }
    Case::new(&draft.frame, bytes, draft.not_due(place))
}

/// One number that the message is read for is outside its limits; often one whose low bits are right.
fn no_such_frame(prng: &mut Prng, draft: &Draft) -> Case {
    let mut case = Case::new(&draft.frame, draft.bytes(), Some(Answer::NoSuchFrame));
    let question = &mut case.question;
    match prng.below(4) {
        0 => {
            let low_bits = question.group;
            question.group = prng.pick([
                0,
                65_536,
                low_bits + 65_536,
                low_bits | 0x8000_0000,
                u32::MAX,
            ]);
        }
        1 => {
            let low_bits = question.kind;
            question.kind = prng.pick([0, 4, 5, 255, low_bits + 256, low_bits + 65_536, u32::MAX]);
        }
        2 => {
            let low_bits = question.sites;
            question.sites = prng.pick([0, 1, 9, 255, low_bits + 256, low_bits + 65_536, u32::MAX]);
        }
        _ => {
            let low_bits = question.articles;
            question.articles =
                prng.pick([0, 65, 66, 255, low_bits + 256, low_bits + 65_536, u32::MAX]);
        }
    }
    if prng.one_in(5) {
        case.question.bytes.clear();
    }
    case
}

/// A lawful message read for another group or kind, or for more or fewer sites or articles.
fn other_frame(prng: &mut Prng, draft: &Draft) -> Case {
    let mut frame = draft.frame;
    let foreign = Some(Answer::Refused(Refusal::Foreign));
    let sure = match prng.below(6) {
        0 | 1 => {
            frame.group = if frame.group == 1 {
                2
            } else {
                prng.pick([1, frame.group - 1])
            };
            foreign
        }
        2 => {
            frame.kind = prng.pick(Kind::ALL);
            if frame.kind == draft.frame.kind {
                draft.granted()
            } else {
                foreign
            }
        }
        3 => {
            frame.sites = prng.byte(frame.sites, 8);
            frame.articles = prng.byte(frame.articles, 64);
            draft.granted()
        }
        4 => {
            frame.sites = prng.byte(2, frame.sites);
            None
        }
        _ => {
            frame.articles = prng.byte(1, frame.articles);
            None
        }
    };
    Case::new(&frame, draft.bytes(), sure)
}

/// Two records exchanged, one moved, or one of another message put in, anywhere.
fn two_records(prng: &mut Prng, mut draft: Draft) -> Case {
    let count = draft.records.len();
    let (place, other) = (prng.index(count), prng.index(count));
    match prng.below(3) {
        0 => draft.records.swap(place, other),
        1 => {
            let moved = draft.records.remove(place);
            draft.records.insert(other.min(draft.records.len()), moved);
        }
        _ => {
            let foreign = lawful(prng, &draft.frame, Size::Small).records();
            let record: Option<Record> = prng.pick_from(&foreign);
            draft.records.splice(place..place, record);
        }
    }
    let bytes = draft.bytes();
    Case::new(&draft.frame, bytes, None)
}

fn bytes_changed(prng: &mut Prng, draft: &Draft) -> Case {
    let mut bytes = draft.bytes();
    for _ in 0..1 + prng.index(3) {
        let place = prng.index(bytes.len());
        match prng.below(4) {
            0 => bytes.insert(place, prng.byte(0, 255)),
            1 if bytes.len() > 1 => {
                bytes.remove(place);
            }
            _ => {
                if let Some(there) = bytes.get_mut(place) {
                    *there = prng.byte(0, 255);
                }
            }
        }
    }
    Case::new(&draft.frame, bytes, None)
}

/// Bytes that are no message at all, or none; some with a right header before them.
fn noise(prng: &mut Prng, frame: &Frame) -> Case {
    let length = prng.pick([0, 1, 5, 6, 7, 16, 200]);
    let mut bytes = Vec::new();
    if prng.one_in(2) {
        let sections = prng.byte(1, 16);
        let (group, kind) = (frame.group, frame.kind.number());
        Record::Header {
            group,
            kind,
            sender: 0,
            sections,
        }
        .write(&mut bytes);
    }
    bytes.extend((0..length).map(|_| prng.byte(0, 255)));
    Case::new(frame, bytes, None)
}
