// The passes of document 01, one after the other: "1; 2 and 3; 4, 5 and 6; 7; 8 to 11 and 14; 12; 13. The first pass with a fault decides, then the
// least place, then the least number."
use crate::scan::{scan, Fault};
use crate::tree::Dossier;
use crate::{form, limits, types};

// The least fault of a pass: by place, then by number.
fn least(faults: Vec<Fault>) -> Result<(), Fault> {
    match faults.into_iter().min() {
        Some(fault) => Err(fault),
        None => Ok(()),
    }
}

// The dossier that a text is, or its refusal.
pub fn read(text: &[u8]) -> Result<Dossier, Fault> {
    let symbols = scan(text)?;
    let dossier = form::read(&symbols, text.len())?;
    least(limits::headings(&dossier))?;
    least(types::faults(&dossier))?;
    least(limits::bindings_faults(&dossier))?;
    least(limits::size_faults(&dossier))?;
    Ok(dossier)
}
