// Random lists of calls on both implementations: replies, lent bytes and held bytes are compared after each call.
use crate::calls::{Calls, Reply, HELD_BYTES, LONGEST_ADVANCE};
use crate::damage::{text, valid};
use crate::proved::Proved;
use crate::random::Random;
use crate::search::Found;
use crate::tally::Tally;

// Longer than every witness.
const MUCH: usize = 20_000;
const CALLS: usize = 16;

#[derive(Clone, Debug)]
pub enum Call {
    Load(Vec<u8>),
    Advance(u64),
    Verdict,
    Witness(Vec<u8>),
    Drop,
}

// A list so far: both implementations, and what was called.
struct List<'a> {
    plain: Calls,
    proved: Proved,
    // what stands in the held bytes where the plain implementation has nothing held
    bytes: Vec<u8>,
    called: Vec<Call>,
    tally: &'a mut Tally,
}

// What went wrong, and the list up to it.
pub struct Difference {
    pub what: String,
    pub calls: Vec<Call>,
    pub held: Vec<u8>,
}

impl List<'_> {
    // One call on both; what differs, if anything.
    fn run(&mut self, call: &Call) -> Found<Option<String>> {
        let mut lent = if let Call::Witness(lent) = call { lent.clone() } else { Vec::new() };
        let expected = match call {
            Call::Load(text) => self.plain.load(text)?,
            Call::Advance(n) => self.plain.advance(*n)?,
            Call::Verdict => self.plain.verdict(),
            Call::Witness(_) => self.plain.witness(&mut lent),
            Call::Drop => self.plain.drop(),
        };
        let mut after = lent.clone();
        let mut untouched = true;
        let reply = match call {
            Call::Load(text) => self.proved.load(text),
            Call::Advance(n) => self.proved.advance(*n),
            Call::Verdict => self.proved.verdict(),
            Call::Witness(before) => {
                let (reply, bytes, around) = self.proved.witness(before);
                (after, untouched) = (bytes, around);
                reply
            }
            Call::Drop => self.proved.drop(),
        };
        self.tally.call(expected);
        self.expect_bytes(call, expected);
        if reply != expected {
            return Ok(Some(format!("reply {reply:?}, expected {expected:?}")));
        }
        if after != lent || !untouched || !self.proved.around_untouched() {
            return Ok(Some("lent bytes".to_string()));
        }
        Ok(if self.proved.held() != self.bytes { Some("held bytes".to_string()) } else { None })
    }

    // "A refused call changes neither the held check nor one byte of a lent buffer."
    fn expect_bytes(&mut self, call: &Call, reply: Reply) {
        let refused = matches!(reply, Reply::Refused(_) | Reply::Faulty(_));
        let changes = matches!(call, Call::Load(_) | Call::Advance(_) | Call::Drop);
        if changes && !refused {
            self.bytes = self.plain.bytes();
        }
    }

    // The length of the witness, where there is one.
    fn witness_length(&self) -> Option<usize> {
        match self.plain.witness(&mut vec![0; MUCH]) {
            Reply::Written(length) => Some(length),
            _ => None,
        }
    }

    fn some_lent(&self, random: &mut Random) -> Vec<u8> {
        let near = self.witness_length().unwrap_or(0);
        let length = match random.below(8) {
            0 => 0,
            1 | 2 => near.saturating_sub(1),
            3 | 4 => near,
            5 => near + 1 + random.below(40),
            6 => random.below(near + 1),
            _ => random.below(200),
        };
        (0..length).map(|_| random.next() as u8).collect()
    }

    fn some_advance(&self, random: &mut Random) -> u64 {
        let total = self.plain.total().unwrap_or(10);
        let few = 1 + random.below(9) as u64;
        let within = 1 + random.next() % (total + 1);
        *random.pick(&[0, 1, few, few, within, within, within, total, total - 1, total + 1, LONGEST_ADVANCE, LONGEST_ADVANCE, LONGEST_ADVANCE + 1, u64::MAX, 1 << 32])
    }

    fn some_call(&self, random: &mut Random) -> Call {
        let nothing = self.plain.total().is_none();
        match random.below(20) {
            0..=8 if nothing => Call::Load(if random.percent(85) { valid(random) } else { text(random) }),
            0..=7 => Call::Advance(self.some_advance(random)),
            8 | 9 => Call::Load(if random.percent(50) { valid(random) } else { text(random) }),
            10..=12 => Call::Verdict,
            13..=16 => Call::Witness(self.some_lent(random)),
            17 => Call::Drop,
            _ => Call::Advance(self.some_advance(random)),
        }
    }
}

// Held bytes of any content: near those of a held check, or none at all.
fn some_bytes(random: &mut Random, limit: u64) -> Found<Vec<u8>> {
    let mut calls = Calls::new(limit);
    calls.load(&valid(random))?;
    if random.percent(50) {
        calls.advance(1 + random.below(200) as u64)?;
    }
    let total = calls.total().unwrap_or(0);
    let mut bytes = calls.bytes();
    let length = u32::from_le_bytes([bytes[4], bytes[5], bytes[6], bytes[7]]) as usize;
    match random.below(10) {
        0 => return Ok((0..HELD_BYTES).map(|_| random.next() as u8).collect()),
        1 => bytes[random.below(4)] = random.next() as u8,
        2 => bytes[0] = random.below(5) as u8,
        3 => bytes[4 + random.below(12)] = random.next() as u8,
        4 => bytes[16 + random.below(length + 1)] = *random.pick(b"\0 x0=\n"),
        5 => bytes[16 + length + random.below(HELD_BYTES - 16 - length)] = 1,
        6 => bytes = vec![0; HELD_BYTES],
        _ => {
            let within = random.next() % (total + 1);
            let place = *random.pick(&[0, 1, total, total + 1, within, within]);
            bytes[0] = 1 + random.below(3) as u8;
            bytes[8..16].copy_from_slice(&place.to_le_bytes());
        }
    }
    if random.percent(5) {
        bytes[random.below(HELD_BYTES)] ^= 1 << random.below(8);
    }
    Ok(bytes)
}

// Lent bytes of every length up to that of the witness and one more.
fn every_length(list: &List) -> Vec<Call> {
    list.witness_length().map_or(Vec::new(), |length| (0..=length + 1).map(|n| Call::Witness(vec![b'_'; n])).collect())
}

// One random list; the difference, if there is one.
pub fn compare(random: &mut Random, limit: u64, tally: &mut Tally) -> Found<Option<Difference>> {
    let bytes = if random.percent(25) { some_bytes(random, limit)? } else { vec![0; HELD_BYTES] };
    let held = bytes.clone();
    let mut list = List { plain: Calls::from_bytes(&bytes, limit)?, proved: Proved::new(&bytes), bytes, called: Vec::new(), tally };
    let calls = 1 + random.below(CALLS);
    let all_lengths = random.percent(3);
    for k in 0..=calls {
        let next = if k < calls { vec![list.some_call(random)] } else if all_lengths { every_length(&list) } else { Vec::new() };
        for call in next {
            list.called.push(call.clone());
            if let Some(what) = list.run(&call)? {
                return Ok(Some(Difference { what, calls: list.called, held }));
            }
        }
    }
    Ok(None)
}
