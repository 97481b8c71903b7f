//! The two commands that make files, each with a short account of what it made.

use std::collections::BTreeMap;
use std::fmt::Write as _;
use std::fs;
use std::path::Path;

use crate::cases::Cases;
use crate::coverage::Coverage;
use crate::reader::Answer;
use crate::script;
use crate::script_maker;

/// How often each word came up.
#[derive(Default)]
struct Counts {
    by_word: BTreeMap<String, usize>,
}

impl Counts {
    fn add(&mut self, word: String) {
        *self.by_word.entry(word).or_insert(0) += 1;
    }

    fn account(&self) -> String {
        self.by_word
            .iter()
            .map(|(word, count)| format!("{count:>9} {word}\n"))
            .collect()
    }
}

pub fn scripts(seed: u64, count: usize, dir: &Path) -> Result<String, String> {
    let (scripts, sheets) = (dir.join("scripts"), dir.join("sheets"));
    make_dir(&scripts)?;
    make_dir(&sheets)?;
    let mut coverage = Coverage::new();
    for index in 0..count {
        let name = format!("{index:04}");
        let script = script_maker::script(seed, index);
        coverage.add(&script);
        write_file(&scripts.join(&name), &script)?;
        write_file(&sheets.join(&name), &script::sheet(&script::run(&script)))?;
    }
    Ok(coverage.account())
}

pub fn messages(seed: u64, count: usize, dir: &Path) -> Result<String, String> {
    make_dir(dir)?;
    let mut counts = Counts::default();
    let mut messages = Vec::new();
    let mut expected = String::new();
    for (index, case) in Cases::new(seed).take(count).enumerate() {
        let question = &case.question;
        let answer = question.answer();
        if case.sure.is_some_and(|sure| sure != answer) {
            return Err(format!(
                "message {index}: {answer} read, but made for {:?}",
                case.sure
            ));
        }
        let (group, kind, sites) = (question.group, question.kind, question.sites);
        let (articles, length) = (question.articles, question.bytes.len());
        // Writing to a string does not fail.
        let _ = writeln!(
            expected,
            "{index} {group} {kind} {sites} {articles} {length} {answer}"
        );
        messages.extend_from_slice(&question.bytes);
        counts.add(match answer {
            Answer::NoSuchFrame => "-1".to_string(),
            Answer::Granted(0) => "granted, no actions".to_string(),
            Answer::Granted(_) => "granted".to_string(),
            Answer::Refused(refusal) => {
                let place = if refusal.place() == 0 {
                    "at 0"
                } else {
                    "further on"
                };
                format!("-{:<2} {place}", refusal.number())
            }
        });
    }
    write_file(&dir.join("messages.bin"), &messages)?;
    write_file(&dir.join("expected.txt"), expected.as_bytes())?;
    Ok(counts.account())
}

fn make_dir(dir: &Path) -> Result<(), String> {
    fs::create_dir_all(dir).map_err(|error| format!("{}: {error}", dir.display()))
}

fn write_file(path: &Path, bytes: &[u8]) -> Result<(), String> {
    fs::write(path, bytes).map_err(|error| format!("{}: {error}", path.display()))
}
