// How often each ending of a text and each refusal of a call occurred.
use crate::calls::Reply;
use crate::report::Ending;
use crate::search::Obligation;

// Numbers 1 to 14 are those of texts, these those of calls.
const OF_CALLS: [u8; 6] = [15, 16, 21, 22, 23, 24];
const NUMBERS: usize = 25;

#[derive(Default)]
pub struct Tally {
    pub texts: u64,
    pub lists: u64,
    pub calls: u64,
    pub differ: u64,
    pub left_out: u64,
    accepted: u64,
    refuted: [u64; 3],
    refused: [u64; NUMBERS],
}

impl Tally {
    pub fn text(&mut self, ending: Ending) {
        match ending {
            Ending::Refused(fault) => self.refused[fault.number as usize] += 1,
            Ending::Accepted => self.accepted += 1,
            Ending::Refuted(Obligation::Initialisation) => self.refuted[0] += 1,
            Ending::Refuted(Obligation::Applicability(_)) => self.refuted[1] += 1,
            Ending::Refuted(Obligation::Correctness(_)) => self.refuted[2] += 1,
        }
    }

    pub fn call(&mut self, reply: Reply) {
        self.calls += 1;
        if let Reply::Refused(number) = reply {
            self.refused[number as usize] += 1;
        }
    }

    pub fn add(&mut self, other: &Tally) {
        self.texts += other.texts;
        self.lists += other.lists;
        self.calls += other.calls;
        self.differ += other.differ;
        self.left_out += other.left_out;
        self.accepted += other.accepted;
        self.refuted.iter_mut().zip(other.refuted).for_each(|(a, b)| *a += b);
        self.refused.iter_mut().zip(other.refused).for_each(|(a, b)| *a += b);
    }

    // Each kind with its count.
    fn kinds(&self) -> Vec<(String, u64)> {
        let mut kinds = vec![("accepted".to_string(), self.accepted)];
        for (k, name) in ["initialisation", "applicability", "correctness"].iter().enumerate() {
            kinds.push((format!("refuted by {name}"), self.refuted[k]));
        }
        kinds.extend((1..=14).chain(OF_CALLS).map(|n: u8| (format!("number {n}"), self.refused[n as usize])));
        kinds
    }

    pub fn line(&self) -> String {
        self.kinds().iter().map(|(kind, count)| format!("{kind}: {count}")).collect::<Vec<_>>().join(", ")
    }

    // The kinds that never occurred.
    pub fn missing(&self) -> Vec<String> {
        self.kinds().into_iter().filter(|(_, count)| *count == 0).map(|(kind, _)| kind).collect()
    }
}
