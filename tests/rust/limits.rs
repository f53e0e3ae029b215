// Numbers 7, 12 and 13 of document 01: headings, counts of bindings, sizes.
use crate::scan::{Fault, Name};
use crate::tree::{Arrow, Declaration, Dossier, Operator, Predicate, Prefix, Term, Type, Use};

pub const STATE_BINDINGS: u64 = 4_096;
pub const PARAMETER_BINDINGS: u64 = 64;
pub const LARGEST_SIZE: u64 = 2_147_483_647;
const SIZE_OF_A_COUNT: u64 = 16;

// The first body of a kind whose heading differs from its entry or is extra, or what stands in the stead of one that is wanting.
fn heading_fault(entries: &[Use], bodies: &[(Use, usize)], behind: usize) -> Option<usize> {
    for (k, (name, place)) in bodies.iter().enumerate() {
        if k >= entries.len() || entries[k].name != name.name {
            return Some(*place);
        }
    }
    if bodies.len() < entries.len() { Some(behind) } else { None }
}

// "A body's heading differs from its contents entry, is extra, or is wanting (place: the heading's first symbol, or that of what stands in its
// stead, or the text's end)."
pub fn headings(dossier: &Dossier) -> Vec<Fault> {
    let givens: Vec<(Use, usize)> = dossier.givens.iter().map(|given| (given.name, given.place)).collect();
    let operations: Vec<(Use, usize)> = dossier.operations.iter().map(|operation| (operation.name, operation.place)).collect();
    let in_givens = heading_fault(&dossier.given_entries, &givens, dossier.abstract_state.place);
    let in_operations = heading_fault(&dossier.operation_entries, &operations, dossier.end);
    in_givens.into_iter().chain(in_operations).map(|place| Fault { place, number: 7 }).collect()
}

fn elements(dossier: &Dossier, name: Use) -> u32 {
    dossier.givens.iter().find(|given| given.name.name == name.name).map_or(0, |given| given.elements.len() as u32)
}

// How many values a carrier has. A partial function gives each element one of H or none, a total one each of them one of H.
fn values(dossier: &Dossier, of: &Type) -> u64 {
    match of {
        Type::Given(name) => elements(dossier, *name) as u64,
        Type::Range(range) => (range.high - range.low + 1) as u64,
        Type::Power(name) => 2u64.pow(elements(dossier, *name)),
        Type::Arrow { arrow, from, to, .. } => {
            let (from, to) = (elements(dossier, *from), elements(dossier, *to));
            match arrow {
                Arrow::Relations => 2u64.pow(from * to),
                Arrow::Partial => (to as u64 + 1).pow(from),
                Arrow::Total => (to as u64).pow(from),
            }
        }
    }
}

// The product of the counts of the carriers, as far as a limit and one.
fn bindings<'a>(dossier: &Dossier, declarations: impl Iterator<Item = &'a Declaration>, limit: u64) -> u64 {
    declarations.fold(1, |count, declaration| (count * values(dossier, &declaration.of)).min(limit + 1))
}

// "Over 4,096 bindings of a state's carriers, over 64 of an operation's inputs or of its outputs; the heading."
pub fn bindings_faults(dossier: &Dossier) -> Vec<Fault> {
    let mut faults = Vec::new();
    for state in [&dossier.abstract_state, &dossier.concrete_state] {
        if bindings(dossier, state.variables.iter(), STATE_BINDINGS) > STATE_BINDINGS {
            faults.push(Fault { place: state.place, number: 12 });
        }
    }
    for operation in &dossier.operations {
        for ending in [b'?', b'!'] {
            let group = operation.parameters.iter().filter(|parameter| parameter.name.name.ending == ending);
            if bindings(dossier, group, PARAMETER_BINDINGS) > PARAMETER_BINDINGS {
                faults.push(Fault { place: operation.place, number: 12 });
            }
        }
    }
    faults
}

// "Size: a literal itself; a variable its largest absolute value .."
struct Sizes {
    variables: Vec<(Name, u64)>,
    faults: Vec<Fault>,
}

fn largest(of: &Type) -> u64 {
    match of {
        Type::Range(range) => range.low.unsigned_abs().max(range.high.unsigned_abs()),
        _ => 0,
    }
}

impl Sizes {
    // The size of a term, 0 for what is no number; none where a part is at fault.
    fn term(&mut self, term: &Term) -> Option<u64> {
        match term {
            Term::Number(n) => Some(n.unsigned_abs()),
            Term::Name(name) => Some(self.variables.iter().rev().find(|(known, _)| *known == name.name).map_or(0, |(_, size)| *size)),
            Term::Bracket(inner) => self.term(inner),
            // "div and prefix - the (left) operand's", "# 16"
            Term::Prefix { prefix, operand, .. } => self.term(operand).map(|size| if *prefix == Prefix::Size { SIZE_OF_A_COUNT } else { size }),
            // "mod the divisor's absolute value"
            Term::Divide { modulo, left, divisor, .. } => self.term(left).map(|size| if *modulo { divisor.unsigned_abs() } else { size }),
            Term::Binary { operator, place, left, right } => {
                let (left, right) = (self.term(left), self.term(right));
                self.binary(*operator, *place, left?, right?)
            }
            Term::Elements { items, .. } => self.all(items.iter()),
            Term::Pairs { items, .. } => self.all(items.iter().flat_map(|(left, right)| [left, right])),
            Term::Such { bound, body, .. } => {
                let right = self.within(bound.name, 0, body);
                if right { Some(0) } else { None }
            }
            Term::Empty(_) | Term::EmptyPairs { .. } => Some(0),
        }
    }

    fn all<'a>(&mut self, terms: impl Iterator<Item = &'a Term>) -> Option<u64> {
        let faulty = terms.map(|term| self.term(term)).filter(|size| size.is_none()).count() > 0;
        if faulty { None } else { Some(0) }
    }

    // "+ and - the sum; * the product"
    fn binary(&mut self, operator: Operator, place: usize, left: u64, right: u64) -> Option<u64> {
        let size = match operator {
            Operator::Plus | Operator::Minus => left + right,
            Operator::Times => left * right,
            Operator::Union | Operator::SetMinus | Operator::Inter => 0,
        };
        if size > LARGEST_SIZE {
            self.faults.push(Fault { place, number: 13 });
            return None;
        }
        Some(size)
    }

    fn within(&mut self, bound: Name, size: u64, body: &Predicate) -> bool {
        self.variables.push((bound, size));
        let right = self.predicate(body);
        self.variables.pop();
        right
    }

    // Whether a predicate has no fault inside.
    fn predicate(&mut self, predicate: &Predicate) -> bool {
        match predicate {
            Predicate::Constant(_) => true,
            Predicate::Not(inner) => self.predicate(inner),
            Predicate::Joined { left, right, .. } => {
                let (left, right) = (self.predicate(left), self.predicate(right));
                left && right
            }
            Predicate::Quantified { bound, over, body, .. } => self.within(bound.name, largest(over), body),
            Predicate::Compared { left, right, .. } => self.all([left, right].into_iter()).is_some(),
            Predicate::InSet { member, set, .. } => self.all([member, set].into_iter()).is_some(),
            Predicate::InRange { member, .. } => self.term(member).is_some(),
            Predicate::PairIn { first, second, set, .. } => self.all([first, second, set].into_iter()).is_some(),
        }
    }

    fn predicate_over(&mut self, variables: &[(Name, u64)], parameters: &[(Name, u64)], predicate: &Predicate) {
        self.variables = [variables, parameters].concat();
        self.predicate(predicate);
    }
}

fn sizes_of(declarations: &[Declaration]) -> Vec<(Name, u64)> {
    declarations.iter().map(|declaration| (declaration.name.name, largest(&declaration.of))).collect()
}

fn with_primed(variables: &[(Name, u64)]) -> Vec<(Name, u64)> {
    let primed = variables.iter().map(|(name, size)| (name.primed(), *size));
    variables.iter().copied().chain(primed).collect()
}

// "Size over 2,147,483,647; the operator. .. A whole with a faulty part isn't judged."
pub fn size_faults(dossier: &Dossier) -> Vec<Fault> {
    let mut sizes = Sizes { variables: Vec::new(), faults: Vec::new() };
    let abstract_sizes = sizes_of(&dossier.abstract_state.variables);
    let concrete_sizes = sizes_of(&dossier.concrete_state.variables);
    sizes.predicate_over(&abstract_sizes, &[], &dossier.abstract_state.predicate);
    sizes.predicate_over(&concrete_sizes, &[], &dossier.concrete_state.predicate);
    sizes.predicate_over(&abstract_sizes, &[], &dossier.ainit);
    sizes.predicate_over(&concrete_sizes, &[], &dossier.cinit);
    sizes.predicate_over(&abstract_sizes, &concrete_sizes, &dossier.retrieve);
    for operation in &dossier.operations {
        let parameters = sizes_of(&operation.parameters);
        sizes.predicate_over(&with_primed(&abstract_sizes), &parameters, &operation.abstract_predicate);
        sizes.predicate_over(&with_primed(&concrete_sizes), &parameters, &operation.concrete_predicate);
    }
    sizes.faults
}
