//! How fast the calls of a table are: so many rounds of one kind of work. What it prints is a sum of all
//! answers, a sum of the messages' bytes, and the figures at the end, so that another program can be seen to
//! have done the same work.

use std::fmt::Write as _;

use crate::kind::{Kind, Pair};
use crate::reader::Frame;
use crate::refusal::Refusal;
use crate::table::Table;

const FRAME: Frame = Frame {
    group: 1,
    kind: Kind::OnHand,
    sites: 3,
    articles: 4,
};

/// What a round does.
#[derive(Clone, Copy)]
enum Work {
    /// Makes a table, and nothing else.
    New,
    /// Fills a new table by transactions of so many writes.
    Commit { writes: usize },
    /// Offers every article of a full table.
    Offer,
    /// Takes all that a full table has, by its transactions or by its offers, in a new table or in one
    /// that has it.
    Take { by_offers: bool, again: bool },
}

impl Work {
    fn parse(word: &str) -> Option<Work> {
        let take = |by_offers, again| Work::Take { by_offers, again };
        Some(match word {
            "new" => Work::New,
            "commit-1" => Work::Commit { writes: 1 },
            "commit-16" => Work::Commit { writes: 16 },
            "offer" => Work::Offer,
            "take-1" => take(false, false),
            "take-many" => take(true, false),
            "again-1" => take(false, true),
            "again-many" => take(true, true),
            _ => return None,
        })
    }
}

struct Job {
    work: Work,
    places: usize,
    rounds: u32,
}

impl Job {
    /// A line has four words: `rack` or `strip`, the work, the places and the rounds. There is one kind of
    /// history here, so the first word makes no difference.
    fn parse(line: &str) -> Option<Job> {
        let words: Vec<&str> = line.split_whitespace().collect();
        let ["rack" | "strip", work, places, rounds] = words[..] else {
            return None;
        };
        Some(Job {
            work: Work::parse(work)?,
            places: places.parse().ok()?,
            rounds: rounds.parse().ok()?,
        })
    }

    fn table(&self, own: u8) -> Table {
        Table::new(FRAME, own, self.places)
    }

    fn run(&self) -> Result<String, Refusal> {
        let mut bag = Vec::new();
        let (own, renews) = match self.work {
            Work::New | Work::Commit { .. } => (0, true),
            Work::Offer => (0, false),
            Work::Take { again, .. } => (1, !again),
        };
        let mut table = self.table(own);
        match self.work {
            Work::New | Work::Commit { .. } => {}
            Work::Offer => {
                commit_all(&mut table, self.places, 1, &mut bag)?;
            }
            Work::Take { by_offers, .. } => {
                let mut sender = self.table(0);
                commit_all(&mut sender, self.places, 1, &mut bag)?;
                if by_offers {
                    offer_all(&sender, &mut bag)?;
                }
            }
        }
        let mut answers = self.round(&mut table, &mut bag)?;
        for _ in 0..self.rounds {
            if renews {
                table = self.table(own);
            }
            answers += self.round(&mut table, &mut bag)?;
        }
        let mut report = format!("{answers} {}", sum(&bag));
        for article in 0..FRAME.articles {
            // Writing to a string does not fail.
            let _ = write!(report, " {}", table.figure(article)?);
        }
        Ok(report)
    }

    fn round(&self, table: &mut Table, bag: &mut Vec<Vec<u8>>) -> Result<u64, Refusal> {
        match self.work {
            Work::New => Ok(0),
            Work::Commit { writes } => commit_all(table, self.places, writes, bag),
            Work::Offer => offer_all(table, bag),
            Work::Take { .. } => {
                let mut new = 0;
                for message in bag {
                    new += table.take(message)? as u64;
                }
                Ok(new)
            }
        }
    }
}

/// Fills so many places by transactions of so many writes; answers the sum of their messages' lengths.
fn commit_all(
    table: &mut Table,
    places: usize,
    writes: usize,
    bag: &mut Vec<Vec<u8>>,
) -> Result<u64, Refusal> {
    bag.clear();
    let mut length = 0;
    for transaction in 0..places / writes {
        table.open()?;
        for number in transaction * writes..(transaction + 1) * writes {
            let amount = (number % 1_000) as i32 - 500;
            let operation = 1;
            table.write((number % 4) as u8, Pair { operation, amount })?;
        }
        let message = table.commit(usize::MAX)?.message.unwrap_or_default();
        length += message.len() as u64;
        bag.push(message);
    }
    Ok(length)
}

/// Offers every article to site 1; answers the sum of the lengths.
fn offer_all(table: &Table, bag: &mut Vec<Vec<u8>>) -> Result<u64, Refusal> {
    bag.clear();
    let mut length = 0;
    for article in 0..FRAME.articles {
        let message = table.offer(1, article, usize::MAX)?;
        length += message.len() as u64;
        bag.push(message);
    }
    Ok(length)
}

fn sum(bag: &[Vec<u8>]) -> u32 {
    bag.iter().flatten().fold(0, |sum, byte| {
        (sum ^ u32::from(*byte)).wrapping_mul(16_777_619)
    })
}

/// Runs the job of each line, and prints its report, or `?` if there is no such job.
pub fn run(lines: &[u8]) -> Result<String, String> {
    let mut out = String::new();
    for line in String::from_utf8_lossy(lines).lines() {
        let report = match Job::parse(line) {
            Some(job) => job
                .run()
                .map_err(|refusal| format!("{line}: refusal {}", refusal.number()))?,
            None => "?".to_string(),
        };
        out += &report;
        out.push('\n');
    }
    Ok(out)
}
