//! Random scripts. A maker runs each line as it adds it, so that it knows which slots hold what.

use crate::prng::Prng;
use crate::script::{Line, Program, CAPACITY, INPUT_LIMIT, SLOTS};
use crate::wrong_lines::{amount, right_line, text, wrong_line};

/// What a script is mostly about.
#[derive(Clone, Copy, PartialEq, Eq, Debug)]
enum Profile {
    Usual,
    Crowded,
    Stale,
    Wrong,
    Damaged,
    Noise,
    Long,
    Limit,
    OneLine,
    Empty,
}

const PROFILES: [Profile; 20] = [
    Profile::Usual,
    Profile::Crowded,
    Profile::Stale,
    Profile::Wrong,
    Profile::Usual,
    Profile::Damaged,
    Profile::Limit,
    Profile::Usual,
    Profile::Stale,
    Profile::Crowded,
    Profile::Limit,
    Profile::OneLine,
    Profile::Stale,
    Profile::Noise,
    Profile::Usual,
    Profile::Crowded,
    Profile::Long,
    Profile::Wrong,
    Profile::Damaged,
    Profile::Empty,
];

/// The script of this index; it does not depend on the others.
pub fn script(seed: u64, index: usize) -> Vec<u8> {
    let profile = PROFILES[index % PROFILES.len()];
    let mut maker = Maker {
        prng: Prng::for_item(seed, index),
        program: Program::new(),
        out: Vec::new(),
    };
    match profile {
        Profile::Usual => maker.rounds(2, 60, 30),
        Profile::Crowded => maker.crowded(),
        Profile::Stale => maker.stale(),
        Profile::Wrong => maker.rounds(5, 80, 2),
        Profile::Damaged => maker.damaged(),
        Profile::Noise => maker.noise(),
        Profile::Long => maker.long(),
        Profile::Limit => maker.limit(),
        Profile::OneLine => maker.single(),
        Profile::Empty => {}
    }
    if !matches!(profile, Profile::Empty | Profile::Limit) {
        maker.finish();
    }
    maker.out
}

struct Maker {
    prng: Prng,
    program: Program,
    out: Vec<u8>,
}

impl Maker {
    fn push(&mut self, bytes: &[u8]) {
        self.program.run_line(bytes);
        self.out.extend_from_slice(bytes);
        self.out.push(b'\n');
    }

    fn push_line(&mut self, line: Line) {
        let bytes = text(&mut self.prng, line);
        self.push(&bytes);
    }

    fn site(&mut self) -> u8 {
        self.prng.byte(0, 2)
    }

    fn article(&mut self) -> u8 {
        self.prng.pick([0, 0, 0, 1, 1, 2, 3])
    }

    fn slot(&mut self) -> u8 {
        self.prng.index(SLOTS) as u8
    }

    /// A slot that holds a message, if there is one.
    fn filled_slot(&mut self) -> u8 {
        let filled: Vec<u8> = (0..SLOTS as u8)
            .filter(|slot| !self.program.slot(*slot).is_empty())
            .collect();
        match self.prng.pick_from(&filled) {
            Some(slot) => slot,
            None => self.slot(),
        }
    }

    fn post(&mut self, site: u8, article: u8, slot: u8) {
        let amount = amount(&mut self.prng);
        self.push_line(Line::Movement {
            site,
            article,
            amount,
            slot,
        });
    }

    fn take(&mut self, site: u8, slot: u8) {
        self.push_line(Line::Take { site, slot });
    }

    fn offer_and_take(&mut self, site: u8, peer: u8, article: u8) {
        let slot = self.slot();
        self.push_line(Line::Offer {
            site,
            peer,
            article,
            slot,
        });
        self.take(peer, slot);
    }

    /// One thing that a user of the sites would do, or now and then something odd; a wrong line comes
    /// once in about `wrong` times.
    fn round(&mut self, wrong: u64) {
        if self.prng.one_in(wrong) {
            let bytes = wrong_line(&mut self.prng);
            return self.push(&bytes);
        }
        let (site, peer) = (self.site(), self.site());
        let (article, slot) = (self.article(), self.slot());
        if self.is_full(site) && self.prng.below(8) > 0 {
            return self.ask(site, peer, article);
        }
        match self.prng.below(17) {
            0..=2 => self.post(site, article, slot),
            3..=4 => {
                self.post(site, article, slot);
                self.take((site + 1) % 3, slot);
                if self.prng.one_in(2) {
                    self.take((site + 2) % 3, slot);
                }
            }
            5..=7 => self.offer_and_take(site, peer, article),
            8..=9 => {
                let slot = self.filled_slot();
                self.take(site, slot);
            }
            10..=14 => self.ask(site, peer, article),
            15 => {
                let line = right_line(&mut self.prng);
                self.push_line(line);
            }
            _ => self.take(site, slot),
        }
    }

    /// A line that needs no place in the history.
    fn ask(&mut self, site: u8, peer: u8, article: u8) {
        let slot = self.slot();
        let line = match self.prng.below(5) {
            0 => Line::Offer {
                site,
                peer,
                article,
                slot,
            },
            1..=2 => Line::Figure { site, article },
            _ => Line::OpenItem {
                site,
                peer,
                article,
            },
        };
        self.push_line(line);
    }

    fn is_full(&self, site: u8) -> bool {
        let table = self.program.tables().get(usize::from(site));
        table.is_some_and(|table| table.history().count() >= CAPACITY)
    }

    fn rounds(&mut self, least: i64, most: i64, wrong: u64) {
        for _ in 0..self.prng.between(least, most) {
            self.round(wrong);
        }
        if self.prng.one_in(2) {
            self.audit();
        }
    }

    /// Asks for every figure, and sometimes for every open item.
    fn audit(&mut self) {
        let items = self.prng.one_in(2);
        for site in 0..3 {
            for article in 0..4 {
                self.push_line(Line::Figure { site, article });
                for peer in 0..if items { 3 } else { 0 } {
                    self.push_line(Line::OpenItem {
                        site,
                        peer,
                        article,
                    });
                }
            }
        }
    }

    /// Fills the history of one site beyond its places, and hands the lot to the others.
    fn crowded(&mut self) {
        self.rounds(0, 8, 30);
        let full = self.site();
        let spread = self.prng.pick([1, 1, 2, 4]);
        for _ in 0..self.prng.between(58, 72) {
            let article = self.prng.index(spread) as u8;
            let slot = self.slot();
            self.post(full, article, slot);
            if self.prng.one_in(12) {
                let slot = self.filled_slot();
                let site = self.site();
                self.take(site, slot);
            }
        }
        for peer in 0..3 {
            if self.prng.one_in(2) {
                for _ in 0..self.prng.between(0, 10) {
                    let (article, slot) = (self.article(), self.slot());
                    self.post(peer, article, slot);
                }
            }
            for article in 0..spread as u8 {
                self.offer_and_take(full, peer, article);
            }
        }
        for _ in 0..self.prng.between(5, 30) {
            self.round(40);
        }
        self.audit();
    }

    /// Keeps messages for long, takes them late, twice and out of turn.
    fn stale(&mut self) {
        let kept = self.prng.between(2, 9) as u8;
        for _ in 0..self.prng.between(2, 6) {
            for slot in 0..kept {
                let (site, peer, article) = (self.site(), self.site(), self.prng.byte(0, 1));
                if self.prng.one_in(3) {
                    self.push_line(Line::Offer {
                        site,
                        peer,
                        article,
                        slot,
                    });
                } else {
                    self.post(site, article, slot);
                }
            }
            for _ in 0..self.prng.between(2, 14) {
                let (site, slot) = (self.site(), self.filled_slot());
                for _ in 0..self.prng.pick([1, 1, 1, 2, 3]) {
                    self.take(site, slot);
                }
                if self.prng.one_in(3) {
                    self.push_line(Line::Figure { site, article: 0 });
                }
            }
        }
        self.rounds(0, 10, 30);
        self.audit();
    }

    fn damaged(&mut self) {
        self.rounds(10, 60, 20);
        for _ in 0..self.out.len() / 50 {
            let place = self.prng.index(self.out.len());
            let byte = self.prng.pick(*b"MOTFPmotfp0123456789+- \r\n\n\t");
            match self.prng.below(4) {
                0 => self.out.insert(place, byte),
                1 if place < self.out.len() => {
                    self.out.remove(place);
                }
                _ => {
                    if let Some(there) = self.out.get_mut(place) {
                        *there = byte;
                    }
                }
            }
        }
    }

    fn noise(&mut self) {
        let any = self.prng.one_in(3);
        for _ in 0..self.prng.pick([1, 2, 5, 60, 900, 4_000]) {
            let byte = if any {
                self.prng.byte(0, 255)
            } else {
                self.prng.pick(*b"TTFFPPMO0011223+-\n\n\n\n\n\n\r")
            };
            self.out.push(byte);
        }
    }

    /// Longer than what counts, without regard to where the cut is.
    fn long(&mut self) {
        let wanted = INPUT_LIMIT + self.prng.index(6_000);
        if self.prng.one_in(6) {
            self.rounds(1, 20, 30);
            let filler = self.prng.pick(*b"0F \0\r");
            self.out.resize(wanted, filler);
        }
        while self.out.len() <= wanted {
            self.round(25);
        }
    }

    /// A line that lies across the end of what counts, cut at any of its bytes.
    fn limit(&mut self) {
        let crossing = right_line(&mut self.prng);
        let mut crossing = text(&mut self.prng, crossing);
        let whole = crossing.len();
        if self.prng.one_in(2) {
            // The cut makes a right line of a wrong one.
            crossing.extend(b"0123456789");
        }
        let kept = if self.prng.one_in(2) {
            whole
        } else {
            self.prng.index(whole + 2)
        };
        let start = INPUT_LIMIT - kept;
        while self.out.len() + 400 < start {
            self.round(25);
        }
        while self.out.len() + 16 < start {
            let (site, article) = (self.site(), self.article());
            self.push_line(Line::Figure { site, article });
        }
        while self.out.len() < start {
            let length = (start - self.out.len() - 1).min(9);
            self.push(&vec![b'x'; length]);
        }
        self.push(&crossing);
        match self.prng.below(4) {
            0 => self.out.truncate(INPUT_LIMIT),
            1 => self.out.truncate(INPUT_LIMIT + 1),
            _ => {
                for _ in 0..self.prng.between(0, 40) {
                    self.round(10);
                }
            }
        }
    }

    fn single(&mut self) {
        match self.prng.below(4) {
            0 => {
                let bytes = wrong_line(&mut self.prng);
                self.push(&bytes);
            }
            1 => {
                let line = right_line(&mut self.prng);
                self.push_line(line);
            }
            _ => self.round(4),
        }
    }

    /// The end of the script: mostly as it is, but also without its last byte or with empty lines.
    fn finish(&mut self) {
        match self.prng.below(8) {
            0..=2 => {
                self.out.pop();
            }
            3 => self.out.push(b'\n'),
            4 => self.out.extend(b"\n\n"),
            _ => {}
        }
    }
}
