// The five calls of document 01 on a held check that is a plain value, and the bytes that stand for it.
use crate::reading::read;
use crate::report::witness;
use crate::scan::{Fault, TEXT_BYTES};
use crate::search::{Check, Found, Obligation};
use crate::tree::Dossier;
use std::rc::Rc;

pub const LONGEST_ADVANCE: u64 = 1_000_000_000;

// The bytes of a held check (crates/held_checks/specs/HeldBytes.antt): mark, three bytes 0, length in 4, place in 8, the text, zeros.
pub const HELD_BYTES: usize = 32_784;
const LENGTH_AT: usize = 4;
const PLACE_AT: usize = 8;
const TEXT_AT: usize = 16;

#[derive(Clone, Copy, PartialEq, Debug)]
pub enum Mark {
    Unfinished,
    Accepted,
    Refuted,
}

const MARKS: [(Mark, u8); 3] = [(Mark::Unfinished, 1), (Mark::Accepted, 2), (Mark::Refuted, 3)];

#[derive(Clone, Copy, PartialEq, Debug)]
pub enum Verdict {
    Unfinished,
    Accepted,
    Refuted(Obligation),
}

// What a call answers.
#[derive(Clone, Copy, PartialEq, Debug)]
pub enum Reply {
    Loaded,
    Faulty(Fault),
    Refused(u8),
    Looked(u64),
    Is(Verdict),
    Written(usize),
    Dropped,
}

pub struct Held {
    text: Vec<u8>,
    // how many bindings were looked at
    place: u64,
    mark: Mark,
    dossier: Rc<Dossier>,
    check: Check,
    // the first failing binding that is not yet looked at, once it is known
    ahead: Option<Option<u64>>,
}

impl Held {
    fn new(text: &[u8], place: u64, mark: Mark, dossier: Dossier, limit: u64) -> Found<Held> {
        let dossier = Rc::new(dossier);
        let check = Check::new(dossier.clone(), limit)?;
        Ok(Held { text: text.to_vec(), place, mark, dossier, check, ahead: None })
    }

    fn failing(&mut self) -> Found<Option<u64>> {
        if self.ahead.is_none() {
            self.ahead = Some(self.check.first_failing(self.place)?);
        }
        Ok(self.ahead.unwrap_or(None))
    }

    // The binding that a refuted mark speaks of is the last one that was looked at.
    fn last(&self) -> u64 {
        self.place - 1
    }

    fn verdict(&self) -> Verdict {
        match self.mark {
            Mark::Unfinished => Verdict::Unfinished,
            Mark::Accepted => Verdict::Accepted,
            Mark::Refuted => Verdict::Refuted(self.check.visited(self.last()).obligation),
        }
    }
}

// What is held, or nothing, and the limit on the enumeration of what is loaded.
pub struct Calls {
    held: Option<Held>,
    limit: u64,
}

fn number_in(bytes: &[u8]) -> u64 {
    bytes.iter().rev().fold(0, |n, b| n << 8 | *b as u64)
}

impl Calls {
    pub fn new(limit: u64) -> Calls {
        Calls { held: None, limit }
    }

    // The bytes that stand for what is held.
    pub fn bytes(&self) -> Vec<u8> {
        let mut bytes = vec![0; HELD_BYTES];
        if let Some(held) = &self.held {
            bytes[0] = MARKS.iter().find(|(mark, _)| *mark == held.mark).map_or(0, |(_, byte)| *byte);
            bytes[LENGTH_AT..PLACE_AT].copy_from_slice(&(held.text.len() as u32).to_le_bytes());
            bytes[PLACE_AT..TEXT_AT].copy_from_slice(&held.place.to_le_bytes());
            bytes[TEXT_AT..TEXT_AT + held.text.len()].copy_from_slice(&held.text);
        }
        bytes
    }

    // What some bytes stand for: "a text that load would take, its profile, a place in its search order and a mark: unfinished only before the last
    // place, accepted only at it, refuted anywhere but at 0; spare bytes are 0" (document 02, 2.12). All others count as nothing held.
    pub fn from_bytes(bytes: &[u8], limit: u64) -> Found<Calls> {
        let nothing = Ok(Calls::new(limit));
        let Some((mark, _)) = MARKS.iter().find(|(_, byte)| *byte == bytes[0]) else { return nothing };
        let length = number_in(&bytes[LENGTH_AT..PLACE_AT]) as usize;
        if bytes[1..LENGTH_AT].iter().any(|b| *b != 0) || length > TEXT_BYTES {
            return nothing;
        }
        let (text, behind) = bytes[TEXT_AT..].split_at(length);
        if behind.iter().any(|b| *b != 0) {
            return nothing;
        }
        let Ok(dossier) = read(text) else { return nothing };
        let place = number_in(&bytes[PLACE_AT..TEXT_AT]);
        let held = Held::new(text, place, *mark, dossier, limit)?;
        let total = held.check.total();
        let fits = match mark {
            Mark::Unfinished => place < total,
            Mark::Accepted => place == total,
            Mark::Refuted => place > 0 && place <= total,
        };
        if fits { Ok(Calls { held: Some(held), limit }) } else { nothing }
    }

    pub fn load(&mut self, text: &[u8]) -> Found<Reply> {
        if self.held.is_some() {
            return Ok(Reply::Refused(22));
        }
        match read(text) {
            Err(fault) => Ok(Reply::Faulty(fault)),
            Ok(dossier) => {
                self.held = Some(Held::new(text, 0, Mark::Unfinished, dossier, self.limit)?);
                Ok(Reply::Loaded)
            }
        }
    }

    // "Advance by n looks at the next n bindings, fewer if the verdict comes, and returns how many. The verdict is unfinished until the last
    // binding, or the first failing one, has been looked at."
    pub fn advance(&mut self, n: u64) -> Found<Reply> {
        let Some(held) = &mut self.held else { return Ok(Reply::Refused(21)) };
        if held.mark != Mark::Unfinished {
            return Ok(Reply::Refused(23));
        }
        if n == 0 || n > LONGEST_ADVANCE {
            return Ok(Reply::Refused(15));
        }
        let failing = held.failing()?;
        let last = failing.map_or(held.check.total(), |place| place + 1);
        let before = held.place;
        held.place = last.min(before + n);
        if held.place == last {
            held.mark = if failing.is_some() { Mark::Refuted } else { Mark::Accepted };
        }
        Ok(Reply::Looked(held.place - before))
    }

    pub fn verdict(&self) -> Reply {
        match &self.held {
            None => Reply::Refused(21),
            Some(held) => Reply::Is(held.verdict()),
        }
    }

    // "Witness writes .. into lent bytes from their start, returns the length, touches no byte after it."
    pub fn witness(&self, lent: &mut [u8]) -> Reply {
        let Some(held) = &self.held else { return Reply::Refused(21) };
        if held.mark != Mark::Refuted {
            return Reply::Refused(24);
        }
        let lines = witness(&held.check, held.last());
        if lent.len() < lines.len() {
            return Reply::Refused(16);
        }
        lent[..lines.len()].copy_from_slice(&lines);
        Reply::Written(lines.len())
    }

    pub fn drop(&mut self) -> Reply {
        self.held = None;
        Reply::Dropped
    }

    // The dossier that is held, and how many bindings its check has.
    pub fn dossier(&self) -> Option<&Dossier> {
        self.held.as_ref().map(|held| &*held.dossier)
    }

    pub fn total(&self) -> Option<u64> {
        self.held.as_ref().map(|held| held.check.total())
    }
}
