//! AUT reading as one would write it in Rust without a second thought: one pass, line by line and part by part, over a cursor;
//! the transitions go into a list, and the cells are written when nothing was refused.

use crate::cell::{Cell, EMPTY};
use crate::reader::{Header, LONGEST_NAME, MOST_BYTES, MOST_NAMES, MOST_SLOTS, MOST_STATES, Refusal, settle};
use std::collections::HashMap;

struct Cursor<'a> {
    text: &'a [u8],
    at: usize,
}

impl<'a> Cursor<'a> {
    fn expect(&mut self, wanted: &[u8]) -> Option<()> {
        if !self.text[self.at..].starts_with(wanted) {
            return None;
        }
        self.at += wanted.len();
        Some(())
    }

    /// A comma, and one space after it or none.
    fn comma(&mut self) -> Option<()> {
        self.expect(b",")?;
        if self.text.get(self.at) == Some(&b' ') {
            self.at += 1;
        }
        Some(())
    }

    /// A number of 1 to 5 digits, with no needless leading zero.
    fn number(&mut self) -> Option<usize> {
        let from = self.at;
        let mut number = 0;
        while let Some(digit @ b'0'..=b'9') = self.text.get(self.at) {
            number = number * 10 + usize::from(digit - b'0');
            self.at += 1;
            if self.at - from > 5 {
                return None;
            }
        }
        let digits = self.at - from;
        (digits == 1 || (digits > 1 && self.text[from] != b'0')).then_some(number)
    }

    fn name(&mut self) -> Option<&'a [u8]> {
        let rest = &self.text[self.at..];
        let len = rest.iter().take_while(|byte| matches!(byte, b'a'..=b'z' | b'0'..=b'9' | b'_')).count();
        let name = &rest[..len];
        self.at += len;
        (len <= LONGEST_NAME && name.first()?.is_ascii_lowercase()).then_some(name)
    }

    fn header(&mut self) -> Option<Header> {
        self.expect(b"des (")?;
        let start = self.number()?;
        self.comma()?;
        let transitions = self.number()?;
        self.comma()?;
        let states = self.number()?;
        self.expect(b")\n")?;
        Some(Header { start, transitions, states })
    }

    fn line(&mut self) -> Option<(usize, &'a [u8], usize)> {
        self.expect(b"(")?;
        let from = self.number()?;
        self.comma()?;
        self.expect(b"\"")?;
        let name = self.name()?;
        self.expect(b"\"")?;
        self.comma()?;
        let to = self.number()?;
        self.expect(b")\n")?;
        Some((from, name, to))
    }
}

pub fn read(text: &[u8], names: &mut Vec<Vec<u8>>, cells: &mut [Cell], slots: usize) -> Result<Header, Refusal> {
    if text.len() > MOST_BYTES || !(1..=MOST_SLOTS).contains(&slots) {
        return Err(Refusal::Range);
    }
    let mut cursor = Cursor { text, at: 0 };
    let header = cursor.header().ok_or(Refusal::Garbled)?;
    let states = header.states.min(MOST_STATES);
    let before = names.len();
    let known = names.clone();
    let mut actions: HashMap<&[u8], u8> = known.iter().zip(0..).map(|(name, action)| (name.as_slice(), action)).collect();
    let mut added: Vec<&[u8]> = Vec::new();
    let mut counts = vec![0u8; states];
    let mut lines = Vec::with_capacity(header.transitions);
    let (mut inside, mut room) = (true, true);
    for _ in 0..header.transitions {
        let (from, name, to) = cursor.line().ok_or(Refusal::Garbled)?;
        if from >= states || to >= states {
            inside = false;
        }
        if !inside || !room {
            continue;
        }
        let used = counts[from];
        let action = match actions.get(name) {
            Some(action) => *action,
            None if before + added.len() < MOST_NAMES => {
                let action = (before + added.len()) as u8;
                actions.insert(name, action);
                added.push(name);
                action
            }
            None => {
                room = false;
                continue;
            }
        };
        if usize::from(used) >= slots {
            room = false;
            continue;
        }
        counts[from] += 1;
        lines.push((from * slots + usize::from(used), Cell { filled: true, action, target: to as u16 }));
    }
    if cursor.at != text.len() {
        return Err(Refusal::Garbled);
    }
    settle(header, inside, room, cells.len(), slots)?;
    cells[..header.states * slots].fill(EMPTY);
    for (at, cell) in lines {
        cells[at] = cell;
    }
    names.extend(added.into_iter().map(<[u8]>::to_vec));
    Ok(header)
}
