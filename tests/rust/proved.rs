// The proved code, linked as a static library (exported.rattle), on bytes with others around them that must stay as they are.
use crate::calls::{Reply, Verdict, HELD_BYTES};
use crate::scan::Fault;
use crate::search::Obligation;

extern "C" {
    fn exported_load(text: *const u8, length: usize, held: *mut u8, reply: *mut u64);
    fn exported_advance(n: usize, held: *mut u8, reply: *mut u64);
    fn exported_verdict(held: *const u8, reply: *mut u64);
    fn exported_witness(held: *const u8, lent: *mut u8, length: usize, reply: *mut u64);
    fn exported_drop(held: *mut u8);
    fn exported_report(text: *const u8, length: usize, out: *mut u8) -> usize;
}

// The length of the bytes that a report is written into (crates/reports).
pub const REPORT_BYTES: usize = 19_419;
// Bytes on both sides of those that are lent.
const AROUND: usize = 64;
const UNTOUCHED: u8 = 0xa5;

// Lent bytes with others on both sides.
struct Lent {
    bytes: Vec<u8>,
}

impl Lent {
    fn new(inside: &[u8]) -> Lent {
        Lent { bytes: [&[UNTOUCHED; AROUND], inside, &[UNTOUCHED; AROUND]].concat() }
    }

    fn inside(&self) -> &[u8] {
        &self.bytes[AROUND..self.bytes.len() - AROUND]
    }

    fn inside_mut(&mut self) -> &mut [u8] {
        let end = self.bytes.len() - AROUND;
        &mut self.bytes[AROUND..end]
    }

    fn around_untouched(&self) -> bool {
        let (front, rest) = self.bytes.split_at(AROUND);
        front.iter().chain(&rest[rest.len() - AROUND..]).all(|b| *b == UNTOUCHED)
    }
}

// The kinds of replies of exported.rattle.
fn reply_of(numbers: [u64; 3]) -> Reply {
    let [kind, first, second] = numbers;
    match kind {
        0 => Reply::Loaded,
        1 => Reply::Faulty(Fault { number: first as u8, place: second as usize }),
        2 => Reply::Refused(first as u8),
        3 => Reply::Looked(first),
        4 => Reply::Is(Verdict::Unfinished),
        5 => Reply::Is(Verdict::Accepted),
        6 => Reply::Is(Verdict::Refuted(Obligation::Initialisation)),
        7 => Reply::Is(Verdict::Refuted(Obligation::Applicability(first as usize))),
        8 => Reply::Is(Verdict::Refuted(Obligation::Correctness(first as usize))),
        9 => Reply::Written(first as usize),
        other => panic!("no kind of reply: {other}"),
    }
}

// The held check of the proved code.
pub struct Proved {
    held: Lent,
}

impl Proved {
    pub fn new(held: &[u8]) -> Proved {
        assert_eq!(held.len(), HELD_BYTES);
        Proved { held: Lent::new(held) }
    }

    pub fn held(&self) -> &[u8] {
        self.held.inside()
    }

    pub fn around_untouched(&self) -> bool {
        self.held.around_untouched()
    }

    pub fn load(&mut self, text: &[u8]) -> Reply {
        let mut reply = [0; 3];
        unsafe { exported_load(text.as_ptr(), text.len(), self.held.inside_mut().as_mut_ptr(), reply.as_mut_ptr()) };
        reply_of(reply)
    }

    pub fn advance(&mut self, n: u64) -> Reply {
        let mut reply = [0; 3];
        unsafe { exported_advance(n as usize, self.held.inside_mut().as_mut_ptr(), reply.as_mut_ptr()) };
        reply_of(reply)
    }

    pub fn verdict(&self) -> Reply {
        let mut reply = [0; 3];
        unsafe { exported_verdict(self.held.inside().as_ptr(), reply.as_mut_ptr()) };
        reply_of(reply)
    }

    // The reply, the lent bytes after the call, and whether those around them are untouched.
    pub fn witness(&self, lent: &[u8]) -> (Reply, Vec<u8>, bool) {
        let mut reply = [0; 3];
        let mut space = Lent::new(lent);
        unsafe { exported_witness(self.held.inside().as_ptr(), space.inside_mut().as_mut_ptr(), lent.len(), reply.as_mut_ptr()) };
        (reply_of(reply), space.inside().to_vec(), space.around_untouched())
    }

    pub fn drop(&mut self) -> Reply {
        unsafe { exported_drop(self.held.inside_mut().as_mut_ptr()) };
        Reply::Dropped
    }
}

// The report of a text; none where a byte behind it was touched.
pub fn report(text: &[u8]) -> Option<Vec<u8>> {
    let mut space = Lent::new(&[UNTOUCHED; REPORT_BYTES]);
    let length = unsafe { exported_report(text.as_ptr(), text.len(), space.inside_mut().as_mut_ptr()) };
    let untouched = space.around_untouched() && space.inside()[length..].iter().all(|b| *b == UNTOUCHED);
    if untouched { Some(space.inside()[..length].to_vec()) } else { None }
}
