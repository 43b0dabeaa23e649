//! A line of patterns.

use super::evidence::Context;
use super::lexer::Cursor;
use super::operations::assignments;
use super::Complaint;
use crate::contents::{Clue, Evidence, Pattern, ANY, ENTRIES, READS};

impl Context {
    pub(super) fn pattern_line(&mut self, cursor: &mut Cursor) -> Result<(), Complaint> {
        let column = cursor.column();
        if cursor.eat("pattern") {
            self.end_of_item()?;
            let states = self.states(cursor, None, Some("newest"))?;
            let mut newest = [0; 4];
            newest.iter_mut().take(self.names.variables.len()).for_each(|value| *value = ANY);
            if cursor.eat("newest") {
                let variable = |name: &str| self.variable(name);
                assignments(cursor, &variable, &mut newest, true)?;
            }
            let Some(Evidence::Patterns(patterns)) = self.parts.last_mut() else { return Ok(()) };
            if patterns.len() == ENTRIES {
                cursor.at = 0;
                return cursor.complain(&format!("at most {ENTRIES} patterns"));
            }
            patterns.push(Pattern { states, newest, clues: Vec::new() });
            self.place = (cursor.line.number, column);
            self.waiting = [[0; 4]; 4];
            return Ok(());
        }
        let clues_so_far = match self.parts.last() {
            Some(Evidence::Patterns(patterns)) => patterns.last().map(|pattern| pattern.clues.clone()),
            _ => None,
        };
        let Some(so_far) = clues_so_far else { return cursor.complain("`pattern`") };
        let mut clues = Vec::new();
        if cursor.eat("waits") {
            for (process, variable, value) in self.waits(cursor)? {
                clues.push(Clue::Waiting { process, variable, value });
            }
        } else if cursor.ahead(0, "empty") || cursor.ahead(0, "ends") {
            let ends = cursor.ahead(0, "ends");
            cursor.at += 1;
            let p = self.process(cursor)?;
            let (v, _) = self.known_variable(cursor)?;
            let twice = |clue: &Clue| matches!(clue, Clue::Queue { process, variable, .. } if (*process as usize, *variable as usize) == (p, v));
            if so_far.iter().any(twice) {
                return cursor.complain_back("one `empty` or `ends` for a queue");
            }
            cursor.done("the end of the line")?;
            clues.push(Clue::Queue { process: p as u8, variable: v as u8, ends });
        } else if cursor.eat("reads") {
            let p = self.process(cursor)?;
            cursor.expect(":")?;
            let before = so_far
                .iter()
                .filter(|clue| matches!(clue, Clue::Read { process, .. } if *process as usize == p))
                .count();
            while cursor.peek().is_some() || clues.is_empty() {
                let own = cursor.ahead(0, "own") && !cursor.ahead(1, "=");
                cursor.at += own as usize;
                let (v, count) = self.known_variable(cursor)?;
                cursor.expect("=")?;
                let expected = format!("a value of {}, 0 to {}", self.names.variable(v), count.saturating_sub(1));
                let value = cursor.number(&expected)?;
                if value >= count as u32 {
                    return cursor.complain_back(&expected);
                }
                if before + clues.len() == READS {
                    return cursor.complain_back(&format!("at most {READS} reads of a process"));
                }
                clues.push(Clue::Read { process: p as u8, variable: v as u8, value: value as u8, own });
                cursor.eat(",");
            }
        } else {
            return cursor.complain("`pattern`, `waits`, `empty`, `ends` or `reads`");
        }
        if let Some(Evidence::Patterns(patterns)) = self.parts.last_mut() {
            if let Some(pattern) = patterns.last_mut() {
                pattern.clues.extend(clues);
            }
        }
        Ok(())
    }
}
