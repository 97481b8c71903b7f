//! Lines of right form with any fields, and lines that are wrong in many ways.

use crate::prng::Prng;
use crate::script::{Line, SLOTS};

/// A digit below `usual` most of the time, and any digit else.
fn mostly_below(prng: &mut Prng, usual: u8) -> u8 {
    if prng.one_in(4) {
        prng.byte(0, 9)
    } else {
        prng.byte(0, usual.saturating_sub(1))
    }
}

pub fn amount(prng: &mut Prng) -> i32 {
    let size = match prng.below(6) {
        0 => prng.pick([0, 1, 9, 10, 255, 256, 65_536, 99_999, 100_000, 999_999]),
        1 => prng.between(0, 999_999) as i32,
        _ => prng.between(1, 500) as i32,
    };
    if prng.one_in(2) {
        size
    } else {
        -size
    }
}

/// A line of right form, whose peer and article may be out of range.
pub fn right_line(prng: &mut Prng) -> Line {
    let site = prng.byte(0, 2);
    let slot = prng.index(SLOTS) as u8;
    match prng.below(5) {
        0 => Line::Movement {
            site,
            article: mostly_below(prng, 4),
            amount: amount(prng),
            slot,
        },
        1 => {
            let (peer, article) = (mostly_below(prng, 3), mostly_below(prng, 4));
            Line::Offer {
                site,
                peer,
                article,
                slot,
            }
        }
        2 => Line::Take { site, slot },
        3 => Line::Figure {
            site,
            article: mostly_below(prng, 4),
        },
        _ => {
            let (peer, article) = (mostly_below(prng, 3), mostly_below(prng, 4));
            Line::OpenItem {
                site,
                peer,
                article,
            }
        }
    }
}

/// The bytes of a line, with a zero amount signed either way.
pub fn text(prng: &mut Prng, line: Line) -> Vec<u8> {
    let mut bytes = line.to_string().into_bytes();
    let zero = matches!(line, Line::Movement { amount: 0, .. });
    if let (true, Some(sign)) = (zero && prng.one_in(2), bytes.get_mut(3)) {
        *sign = b'-';
    }
    bytes
}

/// A line that holds no byte 10 and is wrong for sure.
pub fn wrong_line(prng: &mut Prng) -> Vec<u8> {
    let right = right_line(prng);
    let mut bytes = text(prng, right);
    match prng.below(14) {
        0 => bytes.clear(),
        1 => set(&mut bytes, 0, right.letter().to_ascii_lowercase() as u8),
        2 => {
            let letter = prng.pick([
                b'A', b'H', b'I', b'S', b'Z', b'?', b'0', b' ', b'#', 0, 13, 0xCD, 255,
            ]);
            set(&mut bytes, 0, letter);
        }
        3 => {
            bytes.pop();
        }
        4 => bytes.truncate(prng.index(bytes.len())),
        5 => bytes.push(prng.pick([b' ', b'\r', b'\t', b'0', b'9', 0, b'+', b'x', 0xA0])),
        6 => bytes.push(b'\r'),
        7 => {
            let bad = prng.pick([
                b'/', b':', b' ', b'x', b'O', b'o', b'+', b'-', b'\r', 0, 0xB2, 255,
            ]);
            let place = digit_place(prng, &bytes);
            set(&mut bytes, place, bad);
        }
        8 => {
            let amount = amount(prng);
            bytes = Line::Movement {
                site: 0,
                article: 0,
                amount,
                slot: 0,
            }
            .to_string()
            .into_bytes();
            set(
                &mut bytes,
                3,
                prng.pick([b'*', b',', b'.', b' ', b'0', b'9', b'=', 0xAD, 171]),
            );
        }
        9 | 10 => set(&mut bytes, 1, prng.byte(b'3', b'9')),
        11 => bytes.insert(0, prng.pick([b' ', b'M', b'\r', 0xEF, b'0'])),
        12 => {
            set(&mut bytes, 1, prng.byte(b'3', b'9'));
            bytes.push(prng.byte(b'0', b'9'));
        }
        _ => {
            let length = prng.pick([1, 2, 3, 4, 5, 11, 12, 40, 300]);
            bytes = (0..length)
                .map(|_| prng.byte(0, 255))
                .filter(|byte| *byte != 10)
                .collect();
            bytes.insert(0, b'!');
        }
    }
    bytes
}

fn set(bytes: &mut [u8], place: usize, byte: u8) {
    if let Some(there) = bytes.get_mut(place) {
        *there = byte;
    }
}

/// A place of the line where a digit stands.
fn digit_place(prng: &mut Prng, bytes: &[u8]) -> usize {
    let places: Vec<usize> = (0..bytes.len())
        .filter(|place| bytes.get(*place).is_some_and(u8::is_ascii_digit))
        .collect();
    prng.pick_from(&places).unwrap_or(0)
}
