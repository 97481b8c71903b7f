//! The load: eight sites that post until their histories are full, are brought level over a network that
//! loses, repeats, delays, reorders and misdirects messages, and archive, season after season.

use std::fmt::Write as _;

use crate::dice::Dice;
use crate::kind::{Kind, Pair};
use crate::reader::Frame;
use crate::refusal::Refusal;
use crate::table::Table;
use crate::trace::Trace;

const SITES: u8 = 8;
const ARTICLES: u8 = 64;
const PLACES: usize = 1_024;
const SLOTS: usize = 64;
const MOST_PASSES: usize = 100;

/// What a line asks for.
pub struct Job {
    kind: Kind,
    seasons: u32,
    seed: u32,
}

impl Job {
    /// There is one kind of history here, so the first word makes no difference.
    pub fn parse(line: &str) -> Option<Job> {
        let words: Vec<&str> = line.split_whitespace().collect();
        let ["rack" | "strip", kind, seasons, seed] = words[..] else {
            return None;
        };
        let kind = match kind {
            "on-hand" => Kind::OnHand,
            "flags" => Kind::Flags,
            "price" => Kind::Price,
            _ => return None,
        };
        Some(Job {
            kind,
            seasons: seasons.parse().ok()?,
            seed: seed.parse().ok()?,
        })
    }

    /// Does all seasons, and tells the trace what was done.
    pub fn run(&self, trace: &mut Trace) -> Result<String, Refusal> {
        let mut load = Load::new(self, trace);
        for _ in 0..self.seasons {
            load.season()?;
        }
        Ok(load.counts.to_string())
    }
}

/// A message that waits for a site.
struct Waiting {
    site: u8,
    message: Vec<u8>,
}

struct Load<'a> {
    kind: Kind,
    dice: Dice,
    tables: Vec<Table>,
    /// The article that each site writes next.
    next: [u8; SITES as usize],
    slots: Vec<Option<Waiting>>,
    counts: Counts,
    trace: &'a mut Trace,
}

impl Load<'_> {
    fn new<'a>(job: &Job, trace: &'a mut Trace) -> Load<'a> {
        let frame = Frame {
            group: 1,
            kind: job.kind,
            sites: SITES,
            articles: ARTICLES,
        };
        Load {
            kind: job.kind,
            dice: Dice::new(u64::from(job.seed)),
            tables: (0..SITES)
                .map(|own| Table::new(frame, own, PLACES))
                .collect(),
            next: [0; SITES as usize],
            slots: (0..SLOTS).map(|_| None).collect(),
            counts: Counts::default(),
            trace,
        }
    }

    fn season(&mut self) -> Result<(), Refusal> {
        self.posting()?;
        self.levelling()?;
        self.looking()?;
        self.archiving()
    }

    fn posting(&mut self) -> Result<(), Refusal> {
        let free = PLACES - self.tables[0].history().count();
        let sites = usize::from(SITES);
        let mut shares: Vec<usize> = (0..sites)
            .map(|site| free / sites + usize::from(site < free % sites))
            .collect();
        while shares.iter().any(|share| *share > 0) {
            for (site, share) in shares
                .iter_mut()
                .enumerate()
                .filter(|(_, share)| **share > 0)
            {
                let writes = share_of_turn(&mut self.dice, *share);
                *share -= writes;
                self.turn(site as u8, writes)?;
            }
        }
        Ok(())
    }

    /// One site posts so many writes, and sends the transaction to all others.
    fn turn(&mut self, site: u8, writes: usize) -> Result<(), Refusal> {
        let table = &mut self.tables[usize::from(site)];
        let next = &mut self.next[usize::from(site)];
        table.open()?;
        for _ in 0..writes {
            table.write(*next, pair(self.kind, &mut self.dice))?;
            *next = (*next + 1) % ARTICLES;
        }
        let commit = table.commit(usize::MAX)?;
        let message = commit.message.unwrap_or_default();
        self.trace.posted(table, &message);
        self.counts.commits += 1;
        self.counts.actions += commit.actions as u64;
        for peer in (0..SITES).filter(|peer| *peer != site) {
            self.send(&message, peer);
        }
        Ok(())
    }

    fn send(&mut self, message: &[u8], site: u8) {
        if self.dice.chance(25) {
            self.counts.lost += 1;
            return;
        }
        let mut copies = 1;
        if self.dice.chance(10) {
            self.counts.repeated += 1;
            copies = 2;
        }
        for _ in 0..copies {
            self.wait(message, site);
        }
    }

    /// Puts the message into a slot, from which what waits there is delivered.
    fn wait(&mut self, message: &[u8], site: u8) {
        let slot = self.dice.below(SLOTS as u32) as usize;
        let site = if self.dice.chance(5) {
            self.counts.astray += 1;
            self.dice.below(u32::from(SITES)) as u8
        } else {
            site
        };
        self.deliver(slot);
        let message = message.to_vec();
        self.slots[slot] = Some(Waiting { site, message });
    }

    fn deliver(&mut self, slot: usize) {
        let Some(Waiting { site, message }) = self.slots[slot].take() else {
            return;
        };
        let table = &mut self.tables[usize::from(site)];
        self.trace.delivered(table, &message);
        match table.take(&message) {
            Ok(0) => self.counts.known += 1,
            Ok(new) => {
                self.counts.new += 1;
                self.counts.taken += new as u64;
            }
            Err(Refusal::Gap(_)) => self.counts.behind += 1,
            Err(_) => self.counts.other += 1,
        }
    }

    fn levelling(&mut self) -> Result<(), Refusal> {
        for _ in 0..MOST_PASSES {
            let before = self.counts.offers;
            for article in 0..ARTICLES {
                self.offer_around(article)?;
            }
            for slot in 0..SLOTS {
                self.deliver(slot);
            }
            if self.counts.offers == before {
                break;
            }
            self.counts.passes += 1;
        }
        Ok(())
    }

    fn offer_around(&mut self, article: u8) -> Result<(), Refusal> {
        for site in 0..SITES {
            for peer in (0..SITES).filter(|peer| *peer != site) {
                if self.knows_less(peer, site, article)? {
                    let table = &self.tables[usize::from(site)];
                    let message = table.offer(peer, article, usize::MAX)?;
                    self.trace.offered(table, peer, article)?;
                    self.counts.offers += 1;
                    self.send(&message, peer);
                }
            }
        }
        Ok(())
    }

    /// Does one site know less of another than that one knows itself?
    fn knows_less(&self, one: u8, other: u8, article: u8) -> Result<bool, Refusal> {
        for of in 0..SITES {
            let guess = self.tables[usize::from(one)].known(article, other, of)?;
            let truth = self.tables[usize::from(other)].known(article, other, of)?;
            if guess < truth {
                return Ok(true);
            }
        }
        Ok(false)
    }

    fn looking(&mut self) -> Result<(), Refusal> {
        for article in 0..ARTICLES {
            let first = shown(&self.tables[0], article)?;
            let mut is_level = true;
            for table in &self.tables {
                let shown = shown(table, article)?;
                is_level &= shown == first;
                self.counts.add(shown.0);
            }
            self.counts.level += u64::from(is_level);
        }
        self.trace.looked(&self.tables)?;
        for table in &mut self.tables {
            table.open()?;
            table.write(
                0,
                Pair {
                    operation: 1,
                    amount: 1,
                },
            )?;
            if let Err(Refusal::Full(_)) = table.commit(usize::MAX) {
                self.counts.full += 1;
                table.abandon()?;
            }
        }
        Ok(())
    }

    fn archiving(&mut self) -> Result<(), Refusal> {
        for table in &mut self.tables {
            for article in 0..ARTICLES {
                let archived = table.archive(article)?;
                self.trace.archived(table, article)?;
                self.counts.archived += archived as u64;
            }
        }
        Ok(())
    }
}

fn share_of_turn(dice: &mut Dice, share: usize) -> usize {
    share.min(dice.below(4) as usize + 1)
}

fn pair(kind: Kind, dice: &mut Dice) -> Pair {
    let (operation, amount) = match kind {
        Kind::OnHand => (1, dice.below(2_001) as i32 - 1_000),
        Kind::Flags => (1, 1 << dice.below(24)),
        Kind::Price => {
            if dice.chance(10) {
                (1, dice.below(100_000) as i32)
            } else {
                (2, dice.below(1_001) as i32 - 500)
            }
        }
    };
    Pair { operation, amount }
}

/// What a table shows of an article: its figure and all entries.
fn shown(table: &Table, article: u8) -> Result<(i64, Vec<u32>), Refusal> {
    let mut entries = Vec::new();
    for has in 0..SITES {
        for of in 0..SITES {
            entries.push(table.known(article, has, of)?);
        }
    }
    Ok((table.figure(article)?, entries))
}

#[derive(Default)]
struct Counts {
    commits: u64,
    actions: u64,
    offers: u64,
    lost: u64,
    repeated: u64,
    astray: u64,
    new: u64,
    known: u64,
    behind: u64,
    other: u64,
    taken: u64,
    passes: u64,
    level: u64,
    full: u64,
    archived: u64,
    sum: u64,
}

impl Counts {
    fn add(&mut self, figure: i64) {
        self.sum = self.sum.wrapping_mul(31).wrapping_add(figure as u64);
    }
}

impl std::fmt::Display for Counts {
    fn fmt(&self, f: &mut std::fmt::Formatter) -> std::fmt::Result {
        let counts = [
            ("commits", self.commits),
            ("actions", self.actions),
            ("offers", self.offers),
            ("lost", self.lost),
            ("repeated", self.repeated),
            ("astray", self.astray),
            ("new", self.new),
            ("known", self.known),
            ("behind", self.behind),
            ("other", self.other),
            ("taken", self.taken),
            ("passes", self.passes),
            ("level", self.level),
            ("full", self.full),
            ("archived", self.archived),
        ];
        for (word, count) in counts {
            write!(f, "{word} {count} ")?;
        }
        write!(f, "sum {}", self.sum)
    }
}

/// Runs the job of each line, and prints its counts, or `?` if there is no such job.
pub fn run(lines: &[u8], trace: &mut Trace) -> Result<String, String> {
    let mut out = String::new();
    for line in String::from_utf8_lossy(lines).lines() {
        let counts = match Job::parse(line) {
            Some(job) => job
                .run(trace)
                .map_err(|refusal| format!("{line}: refusal {}", refusal.number()))?,
            None => "?".to_string(),
        };
        // Writing to a string does not fail.
        let _ = writeln!(out, "{counts}");
    }
    Ok(out)
}
