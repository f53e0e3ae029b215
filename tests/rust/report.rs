// What the program prints for a text, and the lines of a witness.
use crate::meaning::{Value, World};
use crate::reading::read;
use crate::scan::Fault;
use crate::search::{Check, Found, Obligation};
use crate::tree::Dossier;
use std::rc::Rc;

// "sets as `{a, b}`, lowest bit first, pairs as `a |-> b`, empty as `{}`"
fn braced(items: Vec<Vec<u8>>) -> Vec<u8> {
    [b"{".to_vec(), items.join(&b", "[..]), b"}".to_vec()].concat()
}

fn shown(world: &World, value: Value) -> Vec<u8> {
    match value {
        Value::Number(n) => n.to_string().into_bytes(),
        Value::Element { given, index } => world.spelled(given, index),
        Value::Set { given, bits } => {
            braced((0..u32::BITS as usize).filter(|k| bits >> k & 1 == 1).map(|index| world.spelled(given, index)).collect())
        }
        Value::Pairs { from, to, bits } => {
            let pair = |(i, j): (usize, usize)| [world.spelled(from, i), b" |-> ".to_vec(), world.spelled(to, j)].concat();
            braced(world.members(from, to, bits).into_iter().map(pair).collect())
        }
    }
}

// "Witness writes one line per variable, each ended by a newline": the binding at a place of the search order.
pub fn witness(check: &Check, place: u64) -> Vec<u8> {
    let mut lines = Vec::new();
    for (name, value) in check.visited(place).binding {
        lines.extend(name.spelled());
        lines.extend(b" = ");
        lines.extend(shown(check.world(), value));
        lines.push(b'\n');
    }
    lines
}

// "The first line names obligation and operation".
pub fn first_line(dossier: &Dossier, obligation: Obligation) -> Vec<u8> {
    let (words, operation) = match obligation {
        Obligation::Initialisation => ("refuted initialisation", None),
        Obligation::Applicability(op) => ("refuted applicability ", Some(op)),
        Obligation::Correctness(op) => ("refuted correctness ", Some(op)),
    };
    let mut line = words.as_bytes().to_vec();
    if let Some(op) = operation {
        line.extend(dossier.operations[op].name.name.spelled());
    }
    line.push(b'\n');
    line
}

pub fn refusal(fault: Fault) -> Vec<u8> {
    format!("refused {} at {}\n", fault.number, fault.place).into_bytes()
}

// How a text ends: refused with a fault, accepted, or refuted by an obligation.
#[derive(Clone, Copy, PartialEq, Debug)]
pub enum Ending {
    Refused(Fault),
    Accepted,
    Refuted(Obligation),
}

// The report of a text, and how it ends; left out where the enumeration takes too long.
pub fn report(text: &[u8], limit: u64) -> Found<(Vec<u8>, Ending)> {
    let dossier = match read(text) {
        Err(fault) => return Ok((refusal(fault), Ending::Refused(fault))),
        Ok(dossier) => Rc::new(dossier),
    };
    let mut check = Check::new(dossier.clone(), limit)?;
    let (first, binding, count, ending) = match check.first_failing(0)? {
        None => (b"accepted\n".to_vec(), Vec::new(), check.total(), Ending::Accepted),
        Some(place) => {
            let obligation = check.visited(place).obligation;
            (first_line(&dossier, obligation), witness(&check, place), place + 1, Ending::Refuted(obligation))
        }
    };
    let last = format!("bindings {count}\n").into_bytes();
    Ok(([first, binding, last].concat(), ending))
}
