// What terms and predicates mean: plain evaluation of trees, with the values of variables looked up by name.
use crate::scan::Name;
use crate::tree::{Arrow, Comparison, Connective, Dossier, Operator, Predicate, Prefix, Quantifier, Range, Term, Type, Use};
use std::rc::Rc;

// "Bit i is the i-th listed element; pair (i, j) is bit i times |H| plus j, counted from 0." Given sets by their place among the bodies.
#[derive(Clone, Copy, PartialEq, Debug)]
pub enum Value {
    Number(i64),
    Element { given: usize, index: usize },
    Set { given: usize, bits: u32 },
    Pairs { from: usize, to: usize, bits: u32 },
}

// The given sets, and the nodes visited so far: beyond a limit a case is left out.
pub struct World {
    dossier: Rc<Dossier>,
    visited: u64,
    limit: u64,
}

// The values of the names in reach.
pub type Environment = Vec<(Name, Value)>;

fn bit(k: usize) -> u32 {
    1 << k
}

// "div and mod round toward minus infinity."
pub fn floor_div(a: i64, b: i64) -> i64 {
    let quotient = a / b;
    if a % b != 0 && (a < 0) != (b < 0) { quotient - 1 } else { quotient }
}

pub fn floor_mod(a: i64, b: i64) -> i64 {
    a - b * floor_div(a, b)
}

fn number(value: Value) -> i64 {
    match value {
        Value::Number(n) => n,
        _ => unreachable!("a number by its type"),
    }
}

fn index(value: Value) -> usize {
    match value {
        Value::Element { index, .. } => index,
        _ => unreachable!("an element by its type"),
    }
}

fn bits(value: Value) -> u32 {
    match value {
        Value::Set { bits, .. } | Value::Pairs { bits, .. } => bits,
        _ => unreachable!("a set by its type"),
    }
}

fn with_bits(like: Value, bits: u32) -> Value {
    match like {
        Value::Set { given, .. } => Value::Set { given, bits },
        Value::Pairs { from, to, .. } => Value::Pairs { from, to, bits },
        _ => unreachable!("a set by its type"),
    }
}

fn binary(operator: Operator, left: Value, right: Value) -> Value {
    match operator {
        Operator::Plus => Value::Number(number(left) + number(right)),
        Operator::Minus => Value::Number(number(left) - number(right)),
        Operator::Times => Value::Number(number(left) * number(right)),
        Operator::Union => with_bits(left, bits(left) | bits(right)),
        Operator::SetMinus => with_bits(left, bits(left) & !bits(right)),
        Operator::Inter => with_bits(left, bits(left) & bits(right)),
    }
}

impl World {
    pub fn new(dossier: Rc<Dossier>, limit: u64) -> World {
        World { dossier, visited: 0, limit }
    }

    pub fn over(&self) -> bool {
        self.visited > self.limit
    }

    fn given(&self, name: Use) -> usize {
        self.dossier.givens.iter().position(|given| given.name.name == name.name).expect("a given set")
    }

    fn size(&self, given: usize) -> usize {
        self.dossier.givens[given].elements.len()
    }

    pub fn spelled(&self, given: usize, index: usize) -> Vec<u8> {
        self.dossier.givens[given].elements[index].name.spelled()
    }

    // The pairs (i, j) of a set of pairs, lowest bit first.
    pub fn members(&self, from: usize, to: usize, bits: u32) -> Vec<(usize, usize)> {
        let across = self.size(to);
        (0..self.size(from) * across).filter(|k| bits & bit(*k) != 0).map(|k| (k / across, k % across)).collect()
    }

    // "Elements go as listed, numbers upward, sets by bits as a number."
    pub fn carrier(&self, of: &Type) -> Vec<Value> {
        match of {
            Type::Given(name) => self.elements(self.given(*name)),
            Type::Range(range) => numbers(range),
            Type::Power(name) => {
                let given = self.given(*name);
                (0..bit(self.size(given))).map(|bits| Value::Set { given, bits }).collect()
            }
            Type::Arrow { arrow, from, to, .. } => {
                let (from, to) = (self.given(*from), self.given(*to));
                let all = 0..bit(self.size(from) * self.size(to));
                all.filter(|bits| self.allowed(*arrow, from, to, *bits)).map(|bits| Value::Pairs { from, to, bits }).collect()
            }
        }
    }

    // A function has at most one pair for each element, a total one exactly one.
    fn allowed(&self, arrow: Arrow, from: usize, to: usize, bits: u32) -> bool {
        let across = self.size(to);
        let row = |i: usize| (bits >> (i * across) & (bit(across) - 1)).count_ones();
        match arrow {
            Arrow::Relations => true,
            Arrow::Partial => (0..self.size(from)).all(|i| row(i) <= 1),
            Arrow::Total => (0..self.size(from)).all(|i| row(i) == 1),
        }
    }

    fn elements(&self, given: usize) -> Vec<Value> {
        (0..self.size(given)).map(|index| Value::Element { given, index }).collect()
    }

    fn name(&self, name: Name, environment: &Environment) -> Value {
        if let Some((_, value)) = environment.iter().rev().find(|(known, _)| *known == name) {
            return *value;
        }
        for (given, body) in self.dossier.givens.iter().enumerate() {
            if let Some(index) = body.elements.iter().position(|element| element.name == name) {
                return Value::Element { given, index };
            }
        }
        unreachable!("a name in reach")
    }

    pub fn term(&mut self, term: &Term, environment: &mut Environment) -> Value {
        self.visited += 1;
        match term {
            Term::Number(n) => Value::Number(*n),
            Term::Name(name) => self.name(name.name, environment),
            Term::Bracket(inner) => self.term(inner, environment),
            Term::Prefix { prefix, operand, .. } => {
                let operand = self.term(operand, environment);
                self.prefix(*prefix, operand)
            }
            Term::Binary { operator, left, right, .. } => {
                let left = self.term(left, environment);
                binary(*operator, left, self.term(right, environment))
            }
            Term::Divide { modulo, left, divisor, .. } => {
                let left = number(self.term(left, environment));
                Value::Number(if *modulo { floor_mod(left, *divisor) } else { floor_div(left, *divisor) })
            }
            Term::Elements { items, .. } => self.listed(items, environment),
            Term::Pairs { items, .. } => self.listed_pairs(items, environment),
            Term::Such { bound, given, body } => self.such(bound.name, self.given(*given), body, environment),
            Term::Empty(given) => Value::Set { given: self.given(*given), bits: 0 },
            Term::EmptyPairs { from, to, .. } => Value::Pairs { from: self.given(*from), to: self.given(*to), bits: 0 },
        }
    }

    // "A set's size is the count of ones in its bits."
    fn prefix(&self, prefix: Prefix, operand: Value) -> Value {
        match (prefix, operand) {
            (Prefix::Minus, value) => Value::Number(-number(value)),
            (Prefix::Size, value) => Value::Number(bits(value).count_ones() as i64),
            (Prefix::Dom, Value::Pairs { from, to, bits }) => {
                Value::Set { given: from, bits: self.members(from, to, bits).iter().fold(0, |set, (i, _)| set | bit(*i)) }
            }
            (Prefix::Ran, Value::Pairs { from, to, bits }) => {
                Value::Set { given: to, bits: self.members(from, to, bits).iter().fold(0, |set, (_, j)| set | bit(*j)) }
            }
            _ => unreachable!("a set of pairs by its type"),
        }
    }

    fn listed(&mut self, items: &[Term], environment: &mut Environment) -> Value {
        let mut set = 0;
        let mut of = 0;
        for item in items {
            let Value::Element { given, index } = self.term(item, environment) else { unreachable!("an element by its type") };
            of = given;
            set |= bit(index);
        }
        Value::Set { given: of, bits: set }
    }

    fn listed_pairs(&mut self, items: &[(Term, Term)], environment: &mut Environment) -> Value {
        let mut set = 0;
        let mut of = (0, 0);
        for (left, right) in items {
            let Value::Element { given: from, index: i } = self.term(left, environment) else { unreachable!("an element by its type") };
            let Value::Element { given: to, index: j } = self.term(right, environment) else { unreachable!("an element by its type") };
            of = (from, to);
            set |= bit(i * self.size(to) + j);
        }
        Value::Pairs { from: of.0, to: of.1, bits: set }
    }

    // The truth of a predicate with a name bound to a value.
    fn with(&mut self, bound: Name, value: Value, body: &Predicate, environment: &mut Environment) -> bool {
        environment.push((bound, value));
        let truth = self.predicate(body, environment);
        environment.pop();
        truth
    }

    fn such(&mut self, bound: Name, given: usize, body: &Predicate, environment: &mut Environment) -> Value {
        let mut set = 0;
        for value in self.elements(given) {
            if self.with(bound, value, body, environment) {
                set |= bit(index(value));
            }
        }
        Value::Set { given, bits: set }
    }

    // How many values of T meet the predicate, as far as the case is not left out.
    fn count(&mut self, bound: Name, over: &Type, body: &Predicate, environment: &mut Environment) -> (usize, usize) {
        let values = self.carrier(over);
        let mut met = 0;
        for value in &values {
            if self.over() {
                break;
            }
            if self.with(bound, *value, body, environment) {
                met += 1;
            }
        }
        (met, values.len())
    }

    fn pair_in(&self, first: Value, second: Value, set: Value) -> bool {
        let Value::Pairs { to, bits, .. } = set else { unreachable!("a set of pairs by its type") };
        bits & bit(index(first) * self.size(to) + index(second)) != 0
    }

    pub fn predicate(&mut self, predicate: &Predicate, environment: &mut Environment) -> bool {
        self.visited += 1;
        match predicate {
            Predicate::Constant(truth) => *truth,
            Predicate::Not(inner) => !self.predicate(inner, environment),
            Predicate::Joined { connective, left, right } => {
                let left = self.predicate(left, environment);
                match connective {
                    Connective::And => left && self.predicate(right, environment),
                    Connective::Or => left || self.predicate(right, environment),
                    Connective::Implies => !left || self.predicate(right, environment),
                    Connective::Iff => left == self.predicate(right, environment),
                }
            }
            Predicate::Quantified { quantifier, bound, over, body } => {
                let (met, all) = self.count(bound.name, over, body, environment);
                match quantifier {
                    Quantifier::Forall => met == all,
                    Quantifier::Exists => met > 0,
                    Quantifier::Exists1 => met == 1,
                }
            }
            Predicate::Compared { comparison, left, right, .. } => {
                let left = self.term(left, environment);
                let right = self.term(right, environment);
                match comparison {
                    Comparison::Equal => left == right,
                    Comparison::Unequal => left != right,
                    Comparison::Less => number(left) < number(right),
                    Comparison::AtMost => number(left) <= number(right),
                }
            }
            Predicate::InSet { negated, member, set, .. } => {
                let member = self.term(member, environment);
                let set = self.term(set, environment);
                (bits(set) & bit(index(member)) != 0) != *negated
            }
            Predicate::InRange { negated, member, range, .. } => {
                let member = number(self.term(member, environment));
                (range.low <= member && member <= range.high) != *negated
            }
            Predicate::PairIn { negated, first, second, set, .. } => {
                let first = self.term(first, environment);
                let second = self.term(second, environment);
                let set = self.term(set, environment);
                self.pair_in(first, second, set) != *negated
            }
        }
    }
}

fn numbers(range: &Range) -> Vec<Value> {
    (range.low..=range.high).map(Value::Number).collect()
}
