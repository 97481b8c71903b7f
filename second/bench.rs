//! How fast messages are read: the messages that `second messages` made, over and over.

use std::fs;
use std::path::Path;
use std::time::Instant;

use crate::reader::{Answer, Question};

/// Reads all messages of the folder so many times, and tells how many bytes and actions a second that was.
pub fn messages(dir: &Path, rounds: u32) -> Result<String, String> {
    let questions = load(dir)?;
    let bytes: usize = questions.iter().map(|question| question.bytes.len()).sum();
    let mut actions = 0u64;
    let start = Instant::now();
    for _ in 0..rounds {
        for question in &questions {
            if let Answer::Granted(count) = question.answer() {
                actions += count as u64;
            }
        }
    }
    let seconds = start.elapsed().as_secs_f64();
    let total = bytes as f64 * f64::from(rounds);
    Ok(format!(
        "second: {:.0} million bytes and {:.1} million actions a second\n",
        total / seconds / 1e6,
        actions as f64 / seconds / 1e6
    ))
}

fn load(dir: &Path) -> Result<Vec<Question>, String> {
    let read = |name: &str| fs::read(dir.join(name)).map_err(|error| format!("{name}: {error}"));
    let all = read("messages.bin")?;
    let lines = String::from_utf8(read("expected.txt")?).map_err(|error| error.to_string())?;
    let mut rest = &all[..];
    let mut questions = Vec::new();
    for line in lines.lines() {
        let fields: Vec<&str> = line.split_whitespace().collect();
        let number = |place: usize| -> Result<u32, String> {
            let field = fields
                .get(place)
                .ok_or_else(|| format!("short line: {line}"))?;
            field.parse().map_err(|_| format!("bad line: {line}"))
        };
        let length = number(5)? as usize;
        if length > rest.len() {
            return Err(format!("too few bytes: {line}"));
        }
        let (bytes, after) = rest.split_at(length);
        rest = after;
        questions.push(Question {
            group: number(1)?,
            kind: number(2)?,
            sites: number(3)?,
            articles: number(4)?,
            bytes: bytes.to_vec(),
        });
    }
    Ok(questions)
}
