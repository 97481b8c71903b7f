//! Damage to single actions and to the order and number of records. Each function keeps to the terms of
//! `Damage`.

use crate::damage_heads::Damage;
use crate::draft::{Draft, Span};
use crate::kind::Pair;
use crate::message::{Action, Record};
use crate::prng::Prng;
use crate::reader::Answer;

pub const ACTIONS: [Damage; 10] = [
    action_article,
    action_coordinator,
    action_time_outside,
    action_time_at_edge,
    transaction,
    amount,
    operation,
    actions_swapped,
    action_repeated,
    action_missing,
];

pub const SHAPES: [Damage; 7] = [
    intervals_swapped,
    interval_repeated,
    interval_missing,
    sections_swapped,
    section_repeated,
    head_missing,
    interval_after_actions,
];

fn action_article(draft: &mut Draft, prng: &mut Prng) -> Option<Answer> {
    let (place, span) = draft.any_action(prng)?;
    let article = draft.article(&span)?;
    let wrong = if prng.one_in(2) {
        article ^ 1
    } else {
        article.wrapping_add(prng.byte(1, 255))
    };
    draft.edit_action(place, |action| action.moment.article = wrong);
    draft.broken(place)
}

/// A coordinator that is no site, or that has no interval in the section.
fn action_coordinator(draft: &mut Draft, prng: &mut Prng) -> Option<Answer> {
    let (place, span) = draft.any_action(prng)?;
    let sites: Vec<u8> = span
        .intervals
        .filter_map(|place| draft.interval(place))
        .map(|interval| interval.site)
        .collect();
    let strangers: Vec<u8> = (0..=draft.frame.sites)
        .filter(|site| !sites.contains(site))
        .collect();
    let wrong = if prng.one_in(4) {
        255
    } else {
        prng.pick_from(&strangers)?
    };
    draft.edit_action(place, |action| action.moment.coordinator = wrong);
    draft.broken(place)
}

fn interval_of(draft: &Draft, span: &Span, action: &Action) -> Option<(u32, u32)> {
    let mut intervals = span
        .intervals
        .clone()
        .filter_map(|place| draft.interval(place));
    let its = intervals.find(|interval| interval.site == action.moment.coordinator)?;
    Some((its.from, its.to))
}

fn action_time_outside(draft: &mut Draft, prng: &mut Prng) -> Option<Answer> {
    let (place, span) = draft.any_action(prng)?;
    let (from, to) = interval_of(draft, &span, &draft.action(place)?)?;
    let time = prng.pick([0, from, from, to + 1, to + 1, u32::MAX]);
    draft.edit_action(place, |action| {
        action.moment.time = time;
        action.transaction = action.transaction.min(time.max(1));
    });
    draft.broken(place)
}

/// The first action as early, or the last one as late, as its interval allows.
fn action_time_at_edge(draft: &mut Draft, prng: &mut Prng) -> Option<Answer> {
    let (_, span) = draft.any_action(prng)?;
    let early = prng.one_in(2);
    let place = if early {
        span.actions.start
    } else {
        span.actions.end - 1
    };
    let (from, to) = interval_of(draft, &span, &draft.action(place)?)?;
    let time = if early { from + 1 } else { to };
    draft.edit_action(place, |action| {
        action.moment.time = time;
        action.transaction = action.transaction.min(time);
    });
    draft.granted()
}

fn transaction(draft: &mut Draft, prng: &mut Prng) -> Option<Answer> {
    let (place, _) = draft.any_action(prng)?;
    let time = draft.action(place)?.moment.time;
    let new = prng.pick([0, 0, 1, time, time + 1, time + 1, u32::MAX]);
    draft.edit_action(place, |action| action.transaction = new);
    if (1..=time).contains(&new) {
        draft.granted()
    } else {
        draft.broken(place)
    }
}

/// An amount at a limit of an operation or beside it.
fn amount(draft: &mut Draft, prng: &mut Prng) -> Option<Answer> {
    let (place, _) = draft.any_action(prng)?;
    let operation = prng.pick_from(draft.frame.kind.operations())?;
    let (amount, known) = match prng.below(10) {
        0 => (operation.least, true),
        1 => (operation.most, true),
        2..=4 => (operation.least - 1, false),
        5..=7 => (operation.most + 1, false),
        8 => (i32::MIN, false),
        _ => (i32::MAX, false),
    };
    let pair = Pair {
        operation: operation.number,
        amount,
    };
    draft.edit_action(place, |action| action.pair = pair);
    if known {
        draft.granted()
    } else {
        draft.broken(place)
    }
}

fn operation(draft: &mut Draft, prng: &mut Prng) -> Option<Answer> {
    let (place, _) = draft.any_action(prng)?;
    let known = draft.frame.kind.operations();
    let unknown: Vec<u8> = [0, 2, 3, 128, 129, 255]
        .into_iter()
        .filter(|number| known.iter().all(|operation| operation.number != *number))
        .collect();
    let wrong = prng.pick_from(&unknown)?;
    draft.edit_action(place, |action| action.pair.operation = wrong);
    draft.broken(place)
}

fn actions_swapped(draft: &mut Draft, prng: &mut Prng) -> Option<Answer> {
    let (place, span) = draft.any_action(prng)?;
    if place + 1 >= span.actions.end {
        return None;
    }
    draft.records.swap(place, place + 1);
    draft.broken(place + 1)
}

/// An action twice, the second time perhaps with other fields than those that make the order.
fn action_repeated(draft: &mut Draft, prng: &mut Prng) -> Option<Answer> {
    let (place, span) = draft.any_action(prng)?;
    let more = (span.actions.len() as u16).checked_add(1)?;
    let mut copy = draft.action(place)?;
    if prng.one_in(2) {
        let operation = prng.pick_from(draft.frame.kind.operations())?;
        copy.pair = Pair {
            operation: operation.number,
            amount: operation.most,
        };
        copy.transaction = 1;
    }
    draft.records.insert(place + 1, Record::Action(copy));
    draft.edit_section(span.head, |_, _, actions| *actions = more);
    draft.broken(place + 1)
}

fn action_missing(draft: &mut Draft, prng: &mut Prng) -> Option<Answer> {
    let (place, span) = draft.any_action(prng)?;
    draft.records.remove(place);
    draft.not_due(span.actions.end - 1)
}

fn intervals_swapped(draft: &mut Draft, prng: &mut Prng) -> Option<Answer> {
    let (place, span) = draft.any_interval(prng)?;
    if place + 1 >= span.intervals.end {
        return None;
    }
    draft.records.swap(place, place + 1);
    draft.broken(place + 1)
}

fn interval_repeated(draft: &mut Draft, prng: &mut Prng) -> Option<Answer> {
    let (place, span) = draft.any_interval(prng)?;
    let more = span.intervals.len() as u8 + 1;
    draft
        .records
        .insert(place + 1, Record::Interval(draft.interval(place)?));
    draft.edit_section(span.head, |_, intervals, _| *intervals = more);
    if more > draft.frame.sites {
        draft.broken(span.head)
    } else {
        draft.broken(place + 1)
    }
}

/// An interval left out: not counted any more, which may leave actions without it, or still counted.
fn interval_missing(draft: &mut Draft, prng: &mut Prng) -> Option<Answer> {
    let (place, span) = draft.any_interval(prng)?;
    let interval = draft.interval(place)?;
    let fewer = span.intervals.len() as u8 - 1;
    if prng.one_in(2) {
        draft.records.remove(place);
        return draft.not_due(span.intervals.end - 1);
    }
    draft.records.remove(place);
    draft.edit_section(span.head, |_, intervals, _| *intervals = fewer);
    if fewer == 0 {
        return draft.broken(span.head);
    }
    let mut actions = span.actions.start - 1..span.actions.end - 1;
    let orphan = actions.find(|place| {
        draft
            .action(*place)
            .is_some_and(|action| action.moment.coordinator == interval.site)
    });
    match orphan {
        Some(orphan) => draft.broken(orphan),
        None => draft.granted(),
    }
}

fn sections_swapped(draft: &mut Draft, prng: &mut Prng) -> Option<Answer> {
    let number = prng.index(draft.spans.len() - 1);
    let first = draft.spans.get(number)?.clone();
    let second = draft.spans.get(number + 1)?.clone();
    let first_length = second.head - first.head;
    let pair = draft.records.get_mut(first.head..second.actions.end)?;
    pair.rotate_left(first_length);
    let second_length = second.actions.end - second.head;
    draft.broken(first.head + second_length)
}

fn section_repeated(draft: &mut Draft, prng: &mut Prng) -> Option<Answer> {
    let span = draft.any_span(prng)?;
    let more = draft.spans.len() as u8 + 1;
    let copy = draft.records.get(span.head..span.actions.end)?.to_vec();
    draft
        .records
        .splice(span.actions.end..span.actions.end, copy);
    draft.edit_header(|_, _, _, sections| *sections = more);
    if more > 16 {
        draft.broken(0)
    } else {
        draft.broken(span.actions.end)
    }
}

/// A header or a section head left out.
fn head_missing(draft: &mut Draft, prng: &mut Prng) -> Option<Answer> {
    let place = if prng.one_in(3) {
        0
    } else {
        draft.any_span(prng)?.head
    };
    draft.records.remove(place);
    draft.not_due(place)
}

/// The last interval of a section behind the section's actions.
fn interval_after_actions(draft: &mut Draft, prng: &mut Prng) -> Option<Answer> {
    let (_, span) = draft.any_action(prng)?;
    let last = span.intervals.end - 1;
    draft
        .records
        .get_mut(last..span.actions.end)?
        .rotate_left(1);
    draft.not_due(last)
}
