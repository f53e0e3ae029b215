// Numbers 8 to 11 and 14 of document 01: names and types. All faults of the pass are listed; the least decides.
use crate::scan::{Fault, Name};
use crate::tree::{Comparison, Declaration, Dossier, Operator, Predicate, Prefix, Range, State, Term, Type, Use};

pub const RANGE_NUMBERS: i64 = 64;
pub const PAIRS: usize = 16;

// What a term is: a number, an element of a given set, a set of such, a set of pairs. Given sets by their place among the bodies.
#[derive(Clone, Copy, PartialEq, Debug)]
pub enum Sort {
    Number,
    Element(usize),
    Set(usize),
    Pairs(usize, usize),
}

struct Rules<'a> {
    dossier: &'a Dossier,
    // "Given sets, elements, variables of both states and operation names are all different": those declared so far
    declared: Vec<Name>,
    // the enclosing bound names
    bound: Vec<Name>,
    // the names in reach
    reach: Vec<(Name, Sort)>,
    faults: Vec<Fault>,
}

impl Rules<'_> {
    fn add(&mut self, number: u8, place: usize) {
        self.faults.push(Fault { place, number });
    }

    fn declare(&mut self, name: Use) {
        if self.declared.contains(&name.name) {
            self.add(8, name.place);
        }
        self.declared.push(name.name);
    }

    // "A given set: only in a type or after `empty`."
    fn given(&mut self, name: Use) -> Option<usize> {
        let found = self.dossier.givens.iter().position(|given| given.name.name == name.name);
        if found.is_none() {
            self.add(9, name.place);
        }
        found
    }

    // "a > b or over 64 numbers in a range, also one after in or notin"
    fn range(&mut self, range: &Range) -> Option<Sort> {
        if range.low > range.high || range.high - range.low + 1 > RANGE_NUMBERS {
            self.add(11, range.place);
            return None;
        }
        Some(Sort::Number)
    }

    // "or a type of over 16 pairs, also that of a brace of pairs or of `empty G H`"
    fn pairs(&mut self, from: usize, to: usize, place: usize) -> Option<Sort> {
        let count = |given: usize| self.dossier.givens[given].elements.len();
        if count(from) * count(to) > PAIRS {
            self.add(11, place);
            return None;
        }
        Some(Sort::Pairs(from, to))
    }

    fn sort_of(&mut self, of: &Type) -> Option<Sort> {
        match of {
            Type::Given(name) => self.given(*name).map(Sort::Element),
            Type::Range(range) => self.range(range),
            Type::Power(name) => self.given(*name).map(Sort::Set),
            Type::Arrow { place, from, to, .. } => {
                let (from, to) = (self.given(*from), self.given(*to));
                self.pairs(from?, to?, *place)
            }
        }
    }

    // The judgement of a whole without a faulty part: "Types don't fit; the operator, comparison or opening brace."
    fn judge(&mut self, result: Option<Sort>, place: usize) -> Option<Sort> {
        if result.is_none() {
            self.add(10, place);
        }
        result
    }

    fn judge_truth(&mut self, fits: bool, place: usize) -> bool {
        if !fits {
            self.add(10, place);
        }
        fits
    }

    // The sort of a term; none where a part is at fault.
    fn term(&mut self, term: &Term) -> Option<Sort> {
        match term {
            Term::Number(_) => Some(Sort::Number),
            Term::Name(name) => self.name(*name),
            Term::Bracket(inner) => self.term(inner),
            Term::Prefix { prefix, place, operand } => {
                let operand = self.term(operand)?;
                self.judge(prefix_sort(*prefix, operand), *place)
            }
            Term::Binary { operator, place, left, right } => {
                let (left, right) = (self.term(left), self.term(right));
                self.judge(binary_sort(*operator, left?, right?), *place)
            }
            Term::Divide { place, left, divisor, divisor_place, .. } => {
                let left = self.term(left);
                // "Divisor 0 or -0; the 0."
                if *divisor == 0 {
                    self.add(14, *divisor_place);
                    return None;
                }
                let fits = if left? == Sort::Number { Some(Sort::Number) } else { None };
                self.judge(fits, *place)
            }
            Term::Elements { place, items } => self.elements(items, *place),
            Term::Pairs { place, items } => self.listed_pairs(items, *place),
            Term::Such { bound, given, body } => {
                let given = self.given(*given);
                let right = self.within(*bound, given.map(Sort::Element), body);
                given.filter(|_| right).map(Sort::Set)
            }
            Term::Empty(given) => self.given(*given).map(Sort::Set),
            Term::EmptyPairs { place, from, to } => {
                let (from, to) = (self.given(*from), self.given(*to));
                self.pairs(from?, to?, *place)
            }
        }
    }

    // "Name unknown or out of reach."
    fn name(&mut self, name: Use) -> Option<Sort> {
        let found = self.reach.iter().rev().find(|(known, _)| *known == name.name).map(|(_, sort)| *sort);
        if found.is_none() {
            self.add(9, name.place);
        }
        found
    }

    // "A brace lists elements of one given set or pairs of one type."
    fn elements(&mut self, items: &[Term], place: usize) -> Option<Sort> {
        let sorts: Vec<Option<Sort>> = items.iter().map(|item| self.term(item)).collect();
        let sorts = sorts.into_iter().collect::<Option<Vec<Sort>>>()?;
        let one = sorts.iter().all(|sort| *sort == sorts[0]);
        let result = match sorts[0] {
            Sort::Element(given) if one => Some(Sort::Set(given)),
            _ => None,
        };
        self.judge(result, place)
    }

    fn listed_pairs(&mut self, items: &[(Term, Term)], place: usize) -> Option<Sort> {
        let sorts: Vec<(Option<Sort>, Option<Sort>)> = items.iter().map(|(left, right)| (self.term(left), self.term(right))).collect();
        let sorts = sorts.into_iter().map(|(left, right)| Some((left?, right?))).collect::<Option<Vec<(Sort, Sort)>>>()?;
        let one = sorts.iter().all(|sort| *sort == sorts[0]);
        match sorts[0] {
            (Sort::Element(from), Sort::Element(to)) if one => self.pairs(from, to, place),
            _ => self.judge(None, place),
        }
    }

    // A predicate with a bound name in reach. "A bound name is plain and differs from every name declared before it and from the enclosing bound ones."
    fn within(&mut self, bound: Use, sort: Option<Sort>, body: &Predicate) -> bool {
        let used = self.declared.contains(&bound.name) || self.bound.contains(&bound.name);
        if used {
            self.add(8, bound.place);
        }
        let Some(sort) = sort else { return false };
        if used {
            return false;
        }
        self.bound.push(bound.name);
        self.reach.push((bound.name, sort));
        let right = self.predicate(body);
        self.reach.pop();
        self.bound.pop();
        right
    }

    // Whether a predicate is without fault. Both sides are looked at in any case.
    fn predicate(&mut self, predicate: &Predicate) -> bool {
        match predicate {
            Predicate::Constant(_) => true,
            Predicate::Not(inner) => self.predicate(inner),
            Predicate::Joined { left, right, .. } => {
                let (left, right) = (self.predicate(left), self.predicate(right));
                left && right
            }
            Predicate::Quantified { bound, over, body, .. } => {
                let sort = self.sort_of(over);
                self.within(*bound, sort, body)
            }
            Predicate::Compared { comparison, place, left, right } => {
                let (Some(left), Some(right)) = (self.term(left), self.term(right)) else { return false };
                let equality = matches!(comparison, Comparison::Equal | Comparison::Unequal);
                self.judge_truth(left == right && (equality || left == Sort::Number), *place)
            }
            Predicate::InSet { place, member, set, .. } => {
                let (Some(member), Some(set)) = (self.term(member), self.term(set)) else { return false };
                self.judge_truth(matches!((member, set), (Sort::Element(g), Sort::Set(h)) if g == h), *place)
            }
            Predicate::InRange { place, member, range, .. } => {
                let (Some(member), Some(_)) = (self.term(member), self.range(range)) else { return false };
                self.judge_truth(member == Sort::Number, *place)
            }
            Predicate::PairIn { place, first, second, set, .. } => {
                let (first, second, set) = (self.term(first), self.term(second), self.term(set));
                let (Some(first), Some(second), Some(set)) = (first, second, set) else { return false };
                let fits = matches!((first, second, set), (Sort::Element(g), Sort::Element(h), Sort::Pairs(a, b)) if g == a && h == b);
                self.judge_truth(fits, *place)
            }
        }
    }

    fn state(&mut self, state: &State) -> Vec<(Name, Sort)> {
        let mut variables = Vec::new();
        for variable in &state.variables {
            self.declare(variable.name);
            if let Some(sort) = self.sort_of(&variable.of) {
                variables.push((variable.name.name, sort));
            }
        }
        self.predicate_over(&[&variables], &state.predicate);
        variables
    }

    // "inputs and outputs differ within an operation"
    fn parameters(&mut self, declarations: &[Declaration]) -> Vec<(Name, Sort)> {
        let mut parameters: Vec<(Name, Sort)> = Vec::new();
        for (k, parameter) in declarations.iter().enumerate() {
            if declarations[..k].iter().any(|earlier| earlier.name.name == parameter.name.name) {
                self.add(8, parameter.name.place);
            }
            if let Some(sort) = self.sort_of(&parameter.of) {
                parameters.push((parameter.name.name, sort));
            }
        }
        parameters
    }

    // A whole predicate: "Elements and enclosing bound names everywhere", and these names.
    fn predicate_over(&mut self, names: &[&[(Name, Sort)]], predicate: &Predicate) {
        self.reach.clear();
        for (k, given) in self.dossier.givens.iter().enumerate() {
            self.reach.extend(given.elements.iter().map(|element| (element.name, Sort::Element(k))));
        }
        for group in names {
            self.reach.extend(group.iter());
        }
        self.predicate(predicate);
    }

    // "ainit: abstract variables. cinit: concrete ones. Retrieve: both. A state's predicate: its own. An operation's abstract predicate: abstract
    // variables plain and primed, inputs, outputs; the concrete predicate likewise."
    fn whole(&mut self) {
        let dossier = self.dossier;
        for given in &dossier.givens {
            self.declare(given.name);
            for element in &given.elements {
                self.declare(*element);
            }
        }
        let abstract_names = self.state(&dossier.abstract_state);
        let concrete_names = self.state(&dossier.concrete_state);
        self.predicate_over(&[&abstract_names], &dossier.ainit);
        self.predicate_over(&[&concrete_names], &dossier.cinit);
        self.predicate_over(&[&abstract_names, &concrete_names], &dossier.retrieve);
        for operation in &dossier.operations {
            self.declare(operation.name);
            let parameters = self.parameters(&operation.parameters);
            let (abstract_after, concrete_after) = (primed(&abstract_names), primed(&concrete_names));
            self.predicate_over(&[&abstract_names, &abstract_after, &parameters], &operation.abstract_predicate);
            self.predicate_over(&[&concrete_names, &concrete_after, &parameters], &operation.concrete_predicate);
        }
    }
}

fn primed(names: &[(Name, Sort)]) -> Vec<(Name, Sort)> {
    names.iter().map(|(name, sort)| (name.primed(), *sort)).collect()
}

// "Arithmetic .. numbers", "# takes any set, dom and ran a set of pairs."
fn prefix_sort(prefix: Prefix, operand: Sort) -> Option<Sort> {
    match (prefix, operand) {
        (Prefix::Minus, Sort::Number) => Some(Sort::Number),
        (Prefix::Size, Sort::Set(_) | Sort::Pairs(..)) => Some(Sort::Number),
        (Prefix::Dom, Sort::Pairs(from, _)) => Some(Sort::Set(from)),
        (Prefix::Ran, Sort::Pairs(_, to)) => Some(Sort::Set(to)),
        _ => None,
    }
}

// "union, minus and inter take two sets of one type"
fn binary_sort(operator: Operator, left: Sort, right: Sort) -> Option<Sort> {
    let arithmetic = matches!(operator, Operator::Plus | Operator::Minus | Operator::Times);
    let suits = if arithmetic { left == Sort::Number } else { matches!(left, Sort::Set(_) | Sort::Pairs(..)) };
    if suits && left == right { Some(left) } else { None }
}

// The faults of the pass.
pub fn faults(dossier: &Dossier) -> Vec<Fault> {
    let mut rules = Rules { dossier, declared: Vec::new(), bound: Vec::new(), reach: Vec::new(), faults: Vec::new() };
    rules.whole();
    rules.faults
}
