//! What a load of on-hand did, for a store that knows no tables: the rows that each site got, looked for,
//! summed and gave up, as lines of numbers behind a letter.
//!
//! P site count, and for each action: coordinator time article amount
//!     A site posted these actions.
//! T site count, and the same for each action
//!     A site got a message with these actions.
//! O site article time
//!     A site looked for its actions on an article that are later than a time.
//! A site article time
//!     A site archived its actions on an article up to a time.
//! F site, and 64 figures
//!     These are a site's figures now.

use std::fmt::Write as _;

use crate::message::{Action, Message};
use crate::reader;
use crate::refusal::Refusal;
use crate::table::Table;

/// The lines, where they are wanted.
pub struct Trace {
    lines: Option<String>,
}

impl Trace {
    pub fn none() -> Trace {
        Trace { lines: None }
    }

    pub fn begin() -> Trace {
        Trace {
            lines: Some(String::new()),
        }
    }

    pub fn into_lines(self) -> String {
        self.lines.unwrap_or_default()
    }

    pub fn posted(&mut self, table: &Table, message: &[u8]) {
        self.carried('P', table, message);
    }

    pub fn delivered(&mut self, table: &Table, message: &[u8]) {
        self.carried('T', table, message);
    }

    fn carried(&mut self, letter: char, table: &Table, bytes: &[u8]) {
        let Some(lines) = &mut self.lines else {
            return;
        };
        // Tables alone wrote the messages of a load, so each is read.
        let Ok(Message { sections, .. }) = reader::read(bytes, table.frame()) else {
            return;
        };
        let actions: Vec<&Action> = sections
            .iter()
            .flat_map(|section| &section.actions)
            .collect();
        // Writing to a string does not fail, here and below.
        let _ = write!(lines, "{letter} {} {}", table.own(), actions.len());
        for Action { moment, pair, .. } in actions {
            let _ = write!(
                lines,
                " {} {} {} {}",
                moment.coordinator, moment.time, moment.article, pair.amount
            );
        }
        lines.push('\n');
    }

    pub fn offered(&mut self, table: &Table, peer: u8, article: u8) -> Result<(), Refusal> {
        let Some(lines) = &mut self.lines else {
            return Ok(());
        };
        let mut from = u32::MAX;
        for of in 0..table.frame().sites {
            from = from.min(table.known(article, peer, of)?);
        }
        let _ = writeln!(lines, "O {} {article} {from}", table.own());
        Ok(())
    }

    pub fn archived(&mut self, table: &Table, article: u8) -> Result<(), Refusal> {
        let Some(lines) = &mut self.lines else {
            return Ok(());
        };
        let mut everywhere = u32::MAX;
        for has in 0..table.frame().sites {
            for of in 0..table.frame().sites {
                everywhere = everywhere.min(table.known(article, has, of)?);
            }
        }
        let _ = writeln!(lines, "A {} {article} {everywhere}", table.own());
        Ok(())
    }

    pub fn looked(&mut self, tables: &[Table]) -> Result<(), Refusal> {
        let Some(lines) = &mut self.lines else {
            return Ok(());
        };
        for table in tables {
            let _ = write!(lines, "F {}", table.own());
            for article in 0..table.frame().articles {
                let _ = write!(lines, " {}", table.figure(article)?);
            }
            lines.push('\n');
        }
        Ok(())
    }
}
