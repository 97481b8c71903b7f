//! Damage to headers, section heads and intervals. Each function changes a draft of a lawful message and
//! answers what a reader must say now; or it answers nothing and has left the draft as it was, since the
//! message has no place for it.

use crate::draft::Draft;
use crate::message::LAST_TIME;
use crate::prng::Prng;
use crate::reader::Answer;
use crate::refusal::Refusal;

pub type Damage = fn(&mut Draft, &mut Prng) -> Option<Answer>;

pub const HEADS: [Damage; 15] = [
    section_count,
    section_count_off_by_one,
    sender,
    foreign,
    article_beyond,
    article_not_above,
    article_at_edge,
    interval_count,
    interval_count_off_by_one,
    action_count_off_by_one,
    action_count_far,
    interval_site,
    interval_ends,
    interval_beyond_last_time,
    interval_against_actions,
];

fn section_count(draft: &mut Draft, prng: &mut Prng) -> Option<Answer> {
    let wrong = prng.pick([0, 17, 18, 128, 255]);
    draft.edit_header(|_, _, _, sections| *sections = wrong);
    draft.broken(0)
}

fn section_count_off_by_one(draft: &mut Draft, prng: &mut Prng) -> Option<Answer> {
    let count = draft.spans.len() as u8;
    let changed = if prng.one_in(2) { count + 1 } else { count - 1 };
    draft.edit_header(|_, _, _, sections| *sections = changed);
    match changed {
        1..=16 if changed > count => draft.not_due(draft.records.len()),
        1..=16 => draft.bytes_left(draft.spans.last()?.head),
        _ => draft.broken(0),
    }
}

fn sender(draft: &mut Draft, prng: &mut Prng) -> Option<Answer> {
    let sites = draft.frame.sites;
    let new = prng.pick([0, sites - 1, sites, sites, sites + 1, 255]);
    draft.edit_header(|_, _, sender, _| *sender = new);
    if new < sites {
        draft.granted()
    } else {
        draft.broken(0)
    }
}

/// Another group, another kind or both; perhaps with a broken rule, which must not be seen.
fn foreign(draft: &mut Draft, prng: &mut Prng) -> Option<Answer> {
    let which = prng.below(3);
    let group_bit = prng.pick([0x0001, 0x0100, 0x8000, 0xFFFF]);
    let other_kinds: Vec<u8> = [0, 1, 2, 3, 4, 129, 255]
        .into_iter()
        .filter(|number| *number != draft.frame.kind.number())
        .collect();
    let other_kind = prng.pick_from(&other_kinds)?;
    let broken = prng.one_in(3);
    draft.edit_header(|group, kind, sender, sections| {
        if which != 0 {
            *group ^= group_bit;
        }
        if which != 1 {
            *kind = other_kind;
        }
        if broken {
            (*sender, *sections) = (200, 0);
        }
    });
    Some(Answer::Refused(Refusal::Foreign))
}

fn article_beyond(draft: &mut Draft, prng: &mut Prng) -> Option<Answer> {
    let span = draft.any_span(prng)?;
    let beyond = prng.pick([draft.frame.articles, draft.frame.articles + 1, 128, 255]);
    draft.edit_section(span.head, |article, _, _| *article = beyond);
    draft.broken(span.head)
}

/// A section for the article of the section before, or for a lower one.
fn article_not_above(draft: &mut Draft, prng: &mut Prng) -> Option<Answer> {
    let place = 1 + prng.index(draft.spans.len() - 1);
    let before = draft.article(draft.spans.get(place - 1)?)?;
    let head = draft.spans.get(place)?.head;
    let new = if prng.one_in(2) {
        before
    } else {
        prng.byte(0, before)
    };
    draft.edit_section(head, |article, _, _| *article = new);
    draft.broken(head)
}

/// The first section for article 0, or the last one for article m - 1, with their actions or without.
fn article_at_edge(draft: &mut Draft, prng: &mut Prng) -> Option<Answer> {
    let (span, edge) = if prng.one_in(2) {
        (draft.spans.first()?.clone(), 0)
    } else {
        (draft.spans.last()?.clone(), draft.frame.articles - 1)
    };
    let alone = prng.one_in(3) && draft.article(&span)? != edge;
    draft.edit_section(span.head, |article, _, _| *article = edge);
    if alone && !span.actions.is_empty() {
        return draft.broken(span.actions.start);
    }
    for place in span.actions {
        draft.edit_action(place, |action| action.moment.article = edge);
    }
    draft.granted()
}

fn interval_count(draft: &mut Draft, prng: &mut Prng) -> Option<Answer> {
    let span = draft.any_span(prng)?;
    let wrong = prng.pick([0, 0, draft.frame.sites + 1, 9, 255]);
    draft.edit_section(span.head, |_, intervals, _| *intervals = wrong);
    draft.broken(span.head)
}

fn interval_count_off_by_one(draft: &mut Draft, prng: &mut Prng) -> Option<Answer> {
    let span = draft.any_span(prng)?;
    let count = span.intervals.len() as u8;
    let changed = if prng.one_in(2) { count + 1 } else { count - 1 };
    draft.edit_section(span.head, |_, intervals, _| *intervals = changed);
    if changed == 0 || changed > draft.frame.sites {
        draft.broken(span.head)
    } else if changed > count {
        draft.not_due(span.intervals.end)
    } else if span.last && span.actions.is_empty() {
        draft.bytes_left(span.intervals.end - 1)
    } else {
        draft.not_due(span.intervals.end - 1)
    }
}

fn action_count_off_by_one(draft: &mut Draft, prng: &mut Prng) -> Option<Answer> {
    let span = draft.any_span(prng)?;
    let count = span.actions.len() as u16;
    let up = prng.one_in(2) || count == 0;
    let changed = if up { count.checked_add(1)? } else { count - 1 };
    draft.edit_section(span.head, |_, _, actions| *actions = changed);
    if up {
        draft.not_due(span.actions.end)
    } else if span.last {
        draft.bytes_left(span.actions.end - 1)
    } else {
        draft.not_due(span.actions.end - 1)
    }
}

/// A count of actions that is far from the right one, such as one with its two bytes exchanged.
fn action_count_far(draft: &mut Draft, prng: &mut Prng) -> Option<Answer> {
    let span = draft.any_span(prng)?;
    let count = span.actions.len() as u16;
    let changed = prng.pick([
        0,
        u16::MAX,
        count ^ 0x0100,
        count ^ 0x8000,
        count.swap_bytes(),
    ]);
    draft.edit_section(span.head, |_, _, actions| *actions = changed);
    let reached = span.actions.start + usize::from(changed.min(count));
    if changed == count {
        draft.granted()
    } else if changed < count && span.last {
        draft.bytes_left(reached)
    } else {
        draft.not_due(reached)
    }
}

/// A site that is too high, or not above that of the interval before.
fn interval_site(draft: &mut Draft, prng: &mut Prng) -> Option<Answer> {
    let (place, span) = draft.any_interval(prng)?;
    let sites = draft.frame.sites;
    let before = if place > span.intervals.start {
        draft.interval(place - 1)
    } else {
        None
    };
    let wrong = match before {
        Some(before) if prng.below(3) > 0 => {
            prng.pick([before.site, before.site.saturating_sub(1)])
        }
        _ => prng.pick([sites, sites, sites + 1, 255]),
    };
    draft.edit_interval(place, |interval| interval.site = wrong);
    draft.broken(place)
}

/// From above to is broken; from equal to to is lawful if no action needs the interval.
fn interval_ends(draft: &mut Draft, prng: &mut Prng) -> Option<Answer> {
    let (place, span) = draft.any_interval(prng)?;
    let interval = draft.interval(place)?;
    if prng.one_in(2) {
        let above = prng.pick([interval.to + 1, interval.to + 1, LAST_TIME + 1, u32::MAX]);
        draft.edit_interval(place, |interval| interval.from = above);
        return draft.broken(place);
    }
    draft.edit_interval(place, |interval| interval.from = interval.to);
    let mut actions = span.actions;
    let orphan = actions.find(|place| {
        draft
            .action(*place)
            .is_some_and(|action| action.moment.coordinator == interval.site)
    });
    match orphan {
        Some(orphan) => draft.broken(orphan),
        None => draft.granted(),
    }
}

fn interval_beyond_last_time(draft: &mut Draft, prng: &mut Prng) -> Option<Answer> {
    let (place, _) = draft.any_interval(prng)?;
    let end = prng.pick([LAST_TIME, LAST_TIME + 1, LAST_TIME + 1, u32::MAX]);
    let empty = end > LAST_TIME && prng.one_in(3);
    draft.edit_interval(place, |interval| {
        interval.to = end;
        if empty {
            interval.from = end;
        }
    });
    if end > LAST_TIME {
        draft.broken(place)
    } else {
        draft.granted()
    }
}

/// Moves an end of an interval right up to an action in it, or one step too far.
fn interval_against_actions(draft: &mut Draft, prng: &mut Prng) -> Option<Answer> {
    let (chosen, span) = draft.any_action(prng)?;
    let site = draft.action(chosen)?.moment.coordinator;
    let place = span.intervals.clone().find(|place| {
        draft
            .interval(*place)
            .is_some_and(|interval| interval.site == site)
    })?;
    let mut its_actions = span.actions.clone().filter_map(|place| {
        let action = draft.action(place)?;
        (action.moment.coordinator == site).then_some((place, action.moment.time))
    });
    let (first, first_time) = its_actions.next()?;
    let (last, last_time) = its_actions.next_back().unwrap_or((first, first_time));
    let too_far = prng.below(3) > 0;
    let shift = u32::from(too_far);
    if prng.one_in(2) {
        draft.edit_interval(place, |interval| interval.to = last_time - shift);
        if too_far {
            return draft.broken(last);
        }
    } else {
        draft.edit_interval(place, |interval| interval.from = first_time - 1 + shift);
        if too_far {
            return draft.broken(first);
        }
    }
    draft.granted()
}
