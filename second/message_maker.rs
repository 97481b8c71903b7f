//! Random lawful messages of all shapes, with fields at their limits.

use std::collections::BTreeMap;

use crate::kind::{Kind, Pair};
use crate::message::{Action, Interval, Message, Moment, Section, LAST_TIME};
use crate::prng::Prng;
use crate::reader::Frame;

#[derive(Clone, Copy, PartialEq, Eq, Debug)]
pub enum Size {
    /// Few records, so that every byte can be changed.
    Small,
    Usual,
    /// One section with hundreds of actions.
    Large,
    /// One section with as many actions as its count can say.
    Most,
}

pub fn frame(prng: &mut Prng) -> Frame {
    let group = match prng.below(3) {
        0 => prng.pick([1, 2, 255, 256, 300, 0x4848, 65_534, 65_535]),
        1 => prng.between(1, 9) as u16,
        _ => prng.between(1, 65_535) as u16,
    };
    Frame {
        group,
        kind: prng.pick(Kind::ALL),
        sites: if prng.one_in(4) {
            prng.pick([2, 8])
        } else {
            prng.byte(2, 8)
        },
        articles: match prng.below(4) {
            0 => prng.pick([1, 2, 16, 17, 63, 64]),
            1 => prng.byte(1, 8),
            _ => prng.byte(1, 64),
        },
    }
}

pub fn lawful(prng: &mut Prng, frame: &Frame, size: Size) -> Message {
    let most_sections = frame.articles.min(16);
    let count = match size {
        Size::Small => prng.byte(1, most_sections.min(3)),
        Size::Large | Size::Most => prng.byte(1, most_sections.min(2)),
        Size::Usual => match prng.below(8) {
            0..=2 => 1,
            3..=5 => prng.byte(1, most_sections.min(4)),
            6 => prng.byte(1, most_sections),
            _ => most_sections,
        },
    };
    let articles = ascending(prng, frame.articles, count);
    let heavy = prng.index(articles.len());
    let mut sections = Vec::new();
    for (place, article) in articles.into_iter().enumerate() {
        let actions = match size {
            Size::Small => prng.index(3),
            Size::Large if place == heavy => prng.pick([200, 254, 255, 256, 257, 400, 600]),
            Size::Most if place == heavy => usize::from(u16::MAX),
            _ => match prng.below(4) {
                0 => prng.index(2),
                1 => prng.index(12),
                _ => prng.index(5),
            },
        };
        sections.push(section(prng, frame, article, size, actions));
    }
    Message {
        group: frame.group,
        kind: frame.kind.number(),
        sender: prng.byte(0, frame.sites - 1),
        sections,
    }
}

/// So many numbers below `bound`, going up; often with the first and the last possible one.
fn ascending(prng: &mut Prng, bound: u8, count: u8) -> Vec<u8> {
    let mut left = usize::from(count);
    let mut chosen = Vec::new();
    let edges = prng.one_in(3);
    for number in 0..bound {
        let rest = u64::from(bound - number);
        let edge = edges && (number == 0 || (left == 1 && number + 1 < bound));
        let take = match (edge, number) {
            (true, 0) => left > 0,
            (true, _) => false,
            (false, _) => prng.below(rest) < left as u64,
        };
        if take {
            chosen.push(number);
            left -= 1;
        }
    }
    chosen
}

fn section(prng: &mut Prng, frame: &Frame, article: u8, size: Size, wanted: usize) -> Section {
    let count = match prng.below(4) {
        _ if size == Size::Small => prng.byte(1, 2),
        0 => 1,
        1 => frame.sites,
        _ => prng.byte(1, frame.sites),
    };
    let era = era(prng);
    let crowd = wanted > 50;
    let intervals: Vec<Interval> = ascending(prng, frame.sites, count)
        .into_iter()
        .map(|site| interval(prng, site, era, crowd))
        .collect();
    let mut actions: BTreeMap<Moment, Action> = BTreeMap::new();
    let mut time_before = 0;
    for _ in 0..wanted.saturating_mul(3) {
        if actions.len() >= wanted {
            break;
        }
        let Some(interval) = prng
            .pick_from(&intervals)
            .filter(|interval| interval.from < interval.to)
        else {
            continue;
        };
        let first = interval.from + 1;
        let time = match prng.below(6) {
            0 => first,
            1 => interval.to,
            2 => time_before.clamp(first, interval.to),
            _ => prng.time(first, interval.to),
        };
        time_before = time;
        let moment = Moment {
            time,
            coordinator: interval.site,
            article,
        };
        let transaction = transaction(prng, time);
        actions.entry(moment).or_insert(Action {
            moment,
            transaction,
            pair: pair(prng, frame.kind),
        });
    }
    Section {
        article,
        intervals,
        actions: actions.into_values().collect(),
    }
}

/// Around when the actions of a section happen.
fn era(prng: &mut Prng) -> u32 {
    match prng.below(4) {
        0 => prng.pick([
            0,
            1,
            120,
            250,
            255,
            65_000,
            65_530,
            16_777_200,
            2_147_483_640,
        ]),
        1 => prng.pick([3_900_000_000, 3_999_999_000, 3_999_999_990, LAST_TIME]),
        2 => prng.time(0, 300),
        _ => prng.time(0, LAST_TIME),
    }
}

fn interval(prng: &mut Prng, site: u8, era: u32, crowd: bool) -> Interval {
    if crowd {
        let from = era.min(LAST_TIME - 1_000_000);
        return Interval {
            site,
            from,
            to: from + 1_000_000,
        };
    }
    let spread = prng.pick([0, 1, 5, 20, 1_000]);
    let from = match prng.below(6) {
        0 => 0,
        _ => era.saturating_add(prng.time(0, spread)).min(LAST_TIME),
    };
    let to = match prng.below(8) {
        0 => from,
        1 => LAST_TIME,
        2 => prng.time(from, LAST_TIME),
        _ => from.saturating_add(prng.time(1, 1 + spread)).min(LAST_TIME),
    };
    Interval { site, from, to }
}

fn transaction(prng: &mut Prng, time: u32) -> u32 {
    match prng.below(4) {
        0 => 1,
        1 => time,
        2 => time.saturating_sub(prng.time(0, 15)).max(1),
        _ => prng.time(1, time),
    }
}

fn pair(prng: &mut Prng, kind: Kind) -> Pair {
    let Some(operation) = prng.pick_from(kind.operations()) else {
        return Pair {
            operation: 1,
            amount: 1,
        };
    };
    let amount = match prng.below(6) {
        0 => operation.least,
        1 => operation.most,
        2 => prng
            .pick([-256, -255, -1, 0, 1, 255, 256])
            .clamp(operation.least, operation.most),
        _ => prng.between(i64::from(operation.least), i64::from(operation.most)) as i32,
    };
    Pair {
        operation: operation.number,
        amount,
    }
}
