//! second: another implementation of the site tables, written from the documents in docs/ alone, and a maker
//! of tests. Its worth lies in sharing nothing with the library: where the two differ, one of them or the
//! documents are wrong.
//!
//! Build:  mkdir -p target && rustc --edition 2021 -O second/main.rs -o target/second
//!
//! second script < SCRIPT > SHEET
//!     Runs a script of the line language and prints its sheet.
//! second scripts SEED COUNT DIR
//!     Makes DIR/scripts/0000 and so on, what each prints as DIR/sheets/0000, and tells what they cover.
//! second read GROUP KIND SITES ARTICLES < MESSAGE
//!     Prints what the call for C would answer, and the place of the refusal, or `-`.
//! second messages SEED COUNT DIR
//!     Makes DIR/messages.bin, the messages back to back, and DIR/expected.txt with one line for each:
//!     index, group, kind, sites, articles, length, answer, place.
//! second bench DIR ROUNDS
//!     Reads the messages in DIR so many times and prints how fast that was.
//! second pace < JOBS
//!     Does the work that each line names, so many rounds of it, and prints sums of what came out.
//! second load < JOBS
//!     Does the load that each line names, and prints what came of it.
//! second trace < JOBS
//!     Does the same, and prints each step of it, for a comparison with another store.
//! second selftest
//!     Checks the worked examples of the documents, and the makers against the reader and the tables.
//!
//! The status is 0 if all went well, 1 if something failed, and 2 if the command was not understood.

#![forbid(unsafe_code)]

mod bench;
mod cases;
mod coverage;
mod damage_actions;
mod damage_heads;
mod dice;
mod draft;
mod examples;
mod kind;
mod load;
mod makers;
mod message;
mod message_maker;
mod pace;
mod prng;
mod reader;
mod refusal;
mod script;
mod script_examples;
mod script_maker;
mod selftest;
mod table;
mod trace;
mod wrong_lines;

use std::io::{self, Read, Write};
use std::path::PathBuf;
use std::process::ExitCode;

use reader::Question;
use trace::Trace;

const USAGE: &str = "usage: second script < SCRIPT
       second scripts SEED COUNT DIR
       second read GROUP KIND SITES ARTICLES < MESSAGE
       second messages SEED COUNT DIR
       second bench DIR ROUNDS
       second pace < JOBS
       second load < JOBS
       second trace < JOBS
       second selftest";

enum Command {
    Script,
    Scripts {
        seed: u64,
        count: usize,
        dir: PathBuf,
    },
    Read {
        group: u32,
        kind: u32,
        sites: u32,
        articles: u32,
    },
    Messages {
        seed: u64,
        count: usize,
        dir: PathBuf,
    },
    Bench {
        dir: PathBuf,
        rounds: u32,
    },
    Pace,
    Load,
    Trace,
    Selftest,
}

impl Command {
    fn parse(arguments: &[String]) -> Option<Command> {
        let words: Vec<&str> = arguments.iter().map(String::as_str).collect();
        let command = match words[..] {
            ["script"] => Command::Script,
            ["scripts", seed, count, dir] => Command::Scripts {
                seed: seed.parse().ok()?,
                count: count.parse().ok()?,
                dir: dir.into(),
            },
            ["read", group, kind, sites, articles] => Command::Read {
                group: group.parse().ok()?,
                kind: kind.parse().ok()?,
                sites: sites.parse().ok()?,
                articles: articles.parse().ok()?,
            },
            ["messages", seed, count, dir] => Command::Messages {
                seed: seed.parse().ok()?,
                count: count.parse().ok()?,
                dir: dir.into(),
            },
            ["bench", dir, rounds] => Command::Bench {
                dir: dir.into(),
                rounds: rounds.parse().ok()?,
            },
            ["pace"] => Command::Pace,
            ["load"] => Command::Load,
            ["trace"] => Command::Trace,
            ["selftest"] => Command::Selftest,
            _ => return None,
        };
        Some(command)
    }

    /// Runs the command and answers what goes to standard output.
    fn run(self) -> Result<Vec<u8>, String> {
        match self {
            Command::Script => {
                let script = input(script::INPUT_LIMIT as u64)?;
                Ok(script::sheet(&script::run(&script)))
            }
            Command::Scripts { seed, count, dir } => {
                Ok(makers::scripts(seed, count, &dir)?.into_bytes())
            }
            Command::Read {
                group,
                kind,
                sites,
                articles,
            } => {
                let bytes = input(u64::MAX)?;
                let question = Question {
                    group,
                    kind,
                    sites,
                    articles,
                    bytes,
                };
                Ok(format!("{}\n", question.answer()).into_bytes())
            }
            Command::Messages { seed, count, dir } => {
                Ok(makers::messages(seed, count, &dir)?.into_bytes())
            }
            Command::Bench { dir, rounds } => Ok(bench::messages(&dir, rounds)?.into_bytes()),
            Command::Pace => Ok(pace::run(&input(u64::MAX)?)?.into_bytes()),
            Command::Load => Ok(load::run(&input(u64::MAX)?, &mut Trace::none())?.into_bytes()),
            Command::Trace => {
                let mut trace = Trace::begin();
                load::run(&input(u64::MAX)?, &mut trace)?;
                Ok(trace.into_lines().into_bytes())
            }
            Command::Selftest => Ok(selftest::run()?.into_bytes()),
        }
    }
}

/// Standard input, but no more than so many bytes of it.
fn input(most: u64) -> Result<Vec<u8>, String> {
    let mut bytes = Vec::new();
    match io::stdin().lock().take(most).read_to_end(&mut bytes) {
        Ok(_) => Ok(bytes),
        Err(error) => Err(format!("standard input: {error}")),
    }
}

fn main() -> ExitCode {
    let arguments: Option<Vec<String>> = std::env::args_os()
        .skip(1)
        .map(|word| word.into_string().ok())
        .collect();
    let Some(command) = arguments.as_deref().and_then(Command::parse) else {
        return complain(USAGE, 2);
    };
    match command.run() {
        Ok(output) => {
            let mut out = io::stdout().lock();
            match out.write_all(&output).and_then(|()| out.flush()) {
                Ok(()) => ExitCode::SUCCESS,
                Err(error) => complain(&format!("standard output: {error}"), 1),
            }
        }
        Err(fault) => complain(&fault, 1),
    }
}

fn complain(text: &str, status: u8) -> ExitCode {
    // There is nobody left to tell if this fails.
    let _ = writeln!(io::stderr(), "{text}");
    ExitCode::from(status)
}
