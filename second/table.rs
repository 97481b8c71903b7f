//! The table of one site.
//!
//! The history is a map in the order of actions, known entries that are 0 are not kept, and figures are
//! worked from the whole history when they are asked for. A base is kept of each article that was
//! archived; of any other it is the start figure.

use std::collections::BTreeMap;

use crate::kind::Pair;
use crate::message::{Action, Interval, Message, Moment, Section, LAST_TIME};
use crate::reader::{self, Frame};
use crate::refusal::Refusal;

const MOST_WRITES: usize = 16;

/// A known entry: up to when site `has` is known to have the actions of site `of` on the article.
#[derive(Clone, Copy, PartialEq, Eq, PartialOrd, Ord, Debug)]
struct Entry {
    article: u8,
    has: u8,
    of: u8,
}

pub struct Table {
    frame: Frame,
    own: u8,
    capacity: usize,
    clock: u32,
    known: BTreeMap<Entry, u32>,
    history: BTreeMap<Moment, Action>,
    bases: BTreeMap<u8, i64>,
    pending: Option<Vec<Action>>,
}

/// What a commit did: how many actions it has, and its message if there was one that fitted.
pub struct Commit {
    pub actions: usize,
    pub message: Option<Vec<u8>>,
}

impl Table {
    pub fn new(frame: Frame, own: u8, capacity: usize) -> Table {
        Table {
            frame,
            own,
            capacity,
            clock: 0,
            known: BTreeMap::new(),
            history: BTreeMap::new(),
            bases: BTreeMap::new(),
            pending: None,
        }
    }

    pub fn frame(&self) -> &Frame {
        &self.frame
    }

    pub fn own(&self) -> u8 {
        self.own
    }

    pub fn clock(&self) -> u32 {
        self.clock
    }

    pub fn history(&self) -> impl Iterator<Item = &Action> {
        self.history.values()
    }

    pub fn open(&mut self) -> Result<(), Refusal> {
        if self.pending.is_some() {
            return Err(Refusal::AlreadyOpen);
        }
        self.pending = Some(Vec::new());
        Ok(())
    }

    pub fn write(&mut self, article: u8, pair: Pair) -> Result<u32, Refusal> {
        let frame = self.frame;
        let pending = self.pending.as_mut().ok_or(Refusal::NotOpen)?;
        if article >= frame.articles {
            return Err(Refusal::NoArticle);
        }
        if !frame.kind.knows(pair) {
            return Err(Refusal::UnknownPair);
        }
        if pending.len() >= MOST_WRITES {
            return Err(Refusal::TooManyWrites);
        }
        let time = self.clock.saturating_add(pending.len() as u32 + 1);
        if time > LAST_TIME {
            return Err(Refusal::TooLate);
        }
        pending.push(Action {
            moment: Moment {
                time,
                coordinator: self.own,
                article,
            },
            transaction: self.clock + 1,
            pair,
        });
        Ok(time)
    }

    /// Commits; `room` is the length of the buffer for the message.
    pub fn commit(&mut self, room: usize) -> Result<Commit, Refusal> {
        let pending = self.pending.take().ok_or(Refusal::NotOpen)?;
        if self.history.len() + pending.len() > self.capacity {
            self.pending = Some(pending);
            return Err(Refusal::Full(self.capacity));
        }
        let message = self.transaction_message(&pending);
        for action in &pending {
            let entry = Entry {
                article: action.moment.article,
                has: self.own,
                of: self.own,
            };
            self.raise(entry, action.moment.time);
            self.clock = action.moment.time;
            self.history.insert(action.moment, *action);
        }
        let bytes = Some(message.bytes());
        Ok(Commit {
            actions: pending.len(),
            message: bytes.filter(|bytes| !pending.is_empty() && bytes.len() <= room),
        })
    }

    pub fn abandon(&mut self) -> Result<(), Refusal> {
        self.pending.take().map(|_| ()).ok_or(Refusal::NotOpen)
    }

    /// Made while the known entries are still those from before the commit.
    fn transaction_message(&self, pending: &[Action]) -> Message {
        let mut by_article: BTreeMap<u8, Vec<Action>> = BTreeMap::new();
        for action in pending {
            by_article
                .entry(action.moment.article)
                .or_default()
                .push(*action);
        }
        let sections = by_article.into_iter().map(|(article, actions)| Section {
            article,
            intervals: vec![Interval {
                site: self.own,
                from: self.entry(article, self.own, self.own),
                to: actions
                    .iter()
                    .map(|action| action.moment.time)
                    .max()
                    .unwrap_or(0),
            }],
            actions,
        });
        self.message(sections.collect())
    }

    fn message(&self, sections: Vec<Section>) -> Message {
        let Frame { group, kind, .. } = self.frame;
        Message {
            group,
            kind: kind.number(),
            sender: self.own,
            sections,
        }
    }

    /// The offer's bytes; `room` is the length of the buffer for them.
    pub fn offer(&self, peer: u8, article: u8, room: usize) -> Result<Vec<u8>, Refusal> {
        self.check_article(article)?;
        self.check_site(peer)?;
        let intervals: Vec<Interval> = (0..self.frame.sites)
            .map(|site| Interval {
                site,
                from: self.entry(article, peer, site),
                to: self.entry(article, self.own, site),
            })
            .collect();
        let carried = |action: &&Action| {
            action.moment.article == article
                && intervals
                    .iter()
                    .any(|interval| interval.holds(&action.moment))
        };
        let actions = self.history.values().filter(carried).copied().collect();
        let bytes = self
            .message(vec![Section {
                article,
                intervals,
                actions,
            }])
            .bytes();
        if bytes.len() > room {
            return Err(Refusal::Short(bytes.len()));
        }
        Ok(bytes)
    }

    pub fn take(&mut self, bytes: &[u8]) -> Result<usize, Refusal> {
        if self.pending.is_some() {
            return Err(Refusal::AlreadyOpen);
        }
        let message = reader::read(bytes, &self.frame)?;
        let intervals = message.placed_intervals();
        for (offset, article, interval) in &intervals {
            if interval.from > self.entry(*article, self.own, interval.site) {
                return Err(Refusal::Gap(*offset));
            }
        }
        for (offset, article, interval) in &intervals {
            if interval.site == self.own && interval.to > self.entry(*article, self.own, self.own) {
                return Err(Refusal::NeverCommitted(*offset));
            }
        }
        let new: Vec<Action> = message
            .sections
            .iter()
            .flat_map(|section| &section.actions)
            .filter(|action| {
                let Moment {
                    time,
                    coordinator,
                    article,
                } = action.moment;
                time > self.entry(article, self.own, coordinator)
            })
            .copied()
            .collect();
        if self.history.len() + new.len() > self.capacity {
            return Err(Refusal::Full(self.capacity));
        }

        self.history
            .extend(new.iter().map(|action| (action.moment, *action)));
        for (_, article, interval) in intervals {
            for has in [self.own, message.sender] {
                self.raise(
                    Entry {
                        article,
                        has,
                        of: interval.site,
                    },
                    interval.to,
                );
            }
            self.clock = self.clock.max(interval.to);
        }
        Ok(new.len())
    }

    pub fn figure(&self, article: u8) -> Result<i64, Refusal> {
        self.check_article(article)?;
        let kind = self.frame.kind;
        let actions = self
            .history
            .values()
            .filter(|action| action.moment.article == article);
        Ok(actions.fold(self.base(article), |figure, action| {
            kind.step(figure, action.pair)
        }))
    }

    /// Works what every site is known to have of an article into its base, and answers how many actions
    /// that were.
    pub fn archive(&mut self, article: u8) -> Result<usize, Refusal> {
        if self.pending.is_some() {
            return Err(Refusal::AlreadyOpen);
        }
        self.check_article(article)?;
        let sites = 0..self.frame.sites;
        let everywhere = sites
            .clone()
            .flat_map(|has| sites.clone().map(move |of| (has, of)))
            .map(|(has, of)| self.entry(article, has, of))
            .min()
            .unwrap_or(0);
        let kind = self.frame.kind;
        let mut base = self.base(article);
        let before = self.history.len();
        self.history.retain(|moment, action| {
            let stays = moment.article != article || moment.time > everywhere;
            if !stays {
                base = kind.step(base, action.pair);
            }
            stays
        });
        self.bases.insert(article, base);
        Ok(before - self.history.len())
    }

    fn base(&self, article: u8) -> i64 {
        let start = self.frame.kind.start();
        self.bases.get(&article).copied().unwrap_or(start)
    }

    pub fn known(&self, article: u8, has: u8, of: u8) -> Result<u32, Refusal> {
        self.check_article(article)?;
        self.check_site(has)?;
        self.check_site(of)?;
        Ok(self.entry(article, has, of))
    }

    pub fn open_item(&self, article: u8, peer: u8) -> Result<bool, Refusal> {
        self.check_article(article)?;
        self.check_site(peer)?;
        Ok(self.entry(article, peer, self.own) < self.entry(article, self.own, self.own))
    }

    fn entry(&self, article: u8, has: u8, of: u8) -> u32 {
        self.known
            .get(&Entry { article, has, of })
            .copied()
            .unwrap_or(0)
    }

    fn raise(&mut self, entry: Entry, to: u32) {
        let known = self.known.entry(entry).or_insert(0);
        *known = to.max(*known);
    }

    fn check_article(&self, article: u8) -> Result<(), Refusal> {
        if article < self.frame.articles {
            Ok(())
        } else {
            Err(Refusal::NoArticle)
        }
    }

    fn check_site(&self, site: u8) -> Result<(), Refusal> {
        if site < self.frame.sites {
            Ok(())
        } else {
            Err(Refusal::NoSite)
        }
    }
}
