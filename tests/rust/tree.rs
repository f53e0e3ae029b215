// What a dossier is by form. Places are byte offsets in the text.
use crate::scan::Name;

// A name where it is declared, listed or used.
#[derive(Clone, Copy, Debug)]
pub struct Use {
    pub name: Name,
    pub place: usize,
}

// "a range a..b"; the place is that of the ..
#[derive(Clone, Copy, Debug)]
pub struct Range {
    pub low: i64,
    pub high: i64,
    pub place: usize,
}

#[derive(Clone, Copy, Debug, PartialEq)]
pub enum Arrow {
    Relations,
    Partial,
    Total,
}

#[derive(Clone, Copy, Debug)]
pub enum Type {
    Given(Use),
    Range(Range),
    Power(Use),
    Arrow { arrow: Arrow, place: usize, from: Use, to: Use },
}

#[derive(Clone, Copy, Debug)]
pub struct Declaration {
    pub name: Use,
    pub of: Type,
}

#[derive(Clone, Copy, Debug, PartialEq)]
pub enum Prefix {
    Minus,
    Size,
    Dom,
    Ran,
}

#[derive(Clone, Copy, Debug, PartialEq)]
pub enum Operator {
    Plus,
    Minus,
    Times,
    Union,
    SetMinus,
    Inter,
}

#[derive(Debug)]
pub enum Term {
    Number(i64),
    Name(Use),
    Bracket(Box<Term>),
    Prefix { prefix: Prefix, place: usize, operand: Box<Term> },
    Binary { operator: Operator, place: usize, left: Box<Term>, right: Box<Term> },
    // div and mod; the place of the divisor is that of its number
    Divide { modulo: bool, place: usize, left: Box<Term>, divisor: i64, divisor_place: usize },
    Elements { place: usize, items: Vec<Term> },
    Pairs { place: usize, items: Vec<(Term, Term)> },
    Such { bound: Use, given: Use, body: Box<Predicate> },
    Empty(Use),
    EmptyPairs { place: usize, from: Use, to: Use },
}

#[derive(Clone, Copy, Debug, PartialEq)]
pub enum Quantifier {
    Forall,
    Exists,
    Exists1,
}

#[derive(Clone, Copy, Debug, PartialEq)]
pub enum Comparison {
    Equal,
    Unequal,
    Less,
    AtMost,
}

#[derive(Clone, Copy, Debug, PartialEq)]
pub enum Connective {
    And,
    Or,
    Implies,
    Iff,
}

#[derive(Debug)]
pub enum Predicate {
    Constant(bool),
    Not(Box<Predicate>),
    Joined { connective: Connective, left: Box<Predicate>, right: Box<Predicate> },
    Quantified { quantifier: Quantifier, bound: Use, over: Type, body: Box<Predicate> },
    Compared { comparison: Comparison, place: usize, left: Term, right: Term },
    // in, or notin where it is negated; the place is that of the word
    InSet { negated: bool, place: usize, member: Term, set: Term },
    InRange { negated: bool, place: usize, member: Term, range: Range },
    PairIn { negated: bool, place: usize, first: Term, second: Term, set: Term },
}

// A given set's body; the place is that of its heading.
pub struct Given {
    pub place: usize,
    pub name: Use,
    pub elements: Vec<Use>,
}

pub struct State {
    pub place: usize,
    pub variables: Vec<Declaration>,
    pub predicate: Predicate,
}

pub struct Operation {
    pub place: usize,
    pub name: Use,
    pub parameters: Vec<Declaration>,
    pub abstract_predicate: Predicate,
    pub concrete_predicate: Predicate,
}

pub struct Dossier {
    pub given_entries: Vec<Use>,
    pub operation_entries: Vec<Use>,
    pub givens: Vec<Given>,
    pub abstract_state: State,
    pub concrete_state: State,
    pub ainit: Predicate,
    pub cinit: Predicate,
    pub retrieve: Predicate,
    pub operations: Vec<Operation>,
    // the text's length
    pub end: usize,
}
