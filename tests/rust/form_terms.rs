// Numbers 4 and 5 of document 01 inside predicates and terms. Tighter binding is a function further down.
use crate::form::{Read, Reader};
use crate::scan::{fault, Kind};
use crate::tree::{Comparison, Connective, Operator, Predicate, Prefix, Quantifier, Term, Type, Use};

pub const DEPTH: usize = 24;
pub const BOUND_NAMES: usize = 3;

// What a symbol stands inside: "open ( [ {, pending prefixes and right sides of =>", and how many bound names are in reach.
#[derive(Clone, Copy)]
pub struct Inside {
    depth: usize,
    bound: usize,
}

impl Inside {
    // "Place: the symbol that opens it, the =>"
    fn deeper(self, place: usize) -> Read<Inside> {
        if self.depth == DEPTH { fault(5, place) } else { Ok(Inside { depth: self.depth + 1, bound: self.bound }) }
    }

    // "or a fourth bound name in reach", "or that name"
    fn binding(self, name: Use) -> Read<Inside> {
        if self.bound == BOUND_NAMES { fault(5, name.place) } else { Ok(Inside { depth: self.depth, bound: self.bound + 1 }) }
    }
}

fn join(connective: Connective, left: Predicate, right: Predicate) -> Predicate {
    Predicate::Joined { connective, left: Box::new(left), right: Box::new(right) }
}

impl Reader<'_> {
    pub fn whole_predicate(&mut self) -> Read<Predicate> {
        self.predicate(Inside { depth: 0, bound: 0 })
    }

    // "`not`, `and`, `or`, `=>`, `<=>`; `=>` groups to the right, the others to the left"
    fn predicate(&mut self, inside: Inside) -> Read<Predicate> {
        let mut left = self.implication(inside)?;
        while self.is("<=>") {
            self.step();
            left = join(Connective::Iff, left, self.implication(inside)?);
        }
        Ok(left)
    }

    fn implication(&mut self, inside: Inside) -> Read<Predicate> {
        let left = self.disjunction(inside)?;
        if !self.is("=>") {
            return Ok(left);
        }
        let right_side = inside.deeper(self.step())?;
        Ok(join(Connective::Implies, left, self.implication(right_side)?))
    }

    fn disjunction(&mut self, inside: Inside) -> Read<Predicate> {
        let mut left = self.conjunction(inside)?;
        while self.is("or") {
            self.step();
            left = join(Connective::Or, left, self.conjunction(inside)?);
        }
        Ok(left)
    }

    fn conjunction(&mut self, inside: Inside) -> Read<Predicate> {
        let mut left = self.negation(inside)?;
        while self.is("and") {
            self.step();
            left = join(Connective::And, left, self.negation(inside)?);
        }
        Ok(left)
    }

    fn negation(&mut self, inside: Inside) -> Read<Predicate> {
        if !self.is("not") {
            return self.atom(inside);
        }
        let pending = inside.deeper(self.step())?;
        Ok(Predicate::Not(Box::new(self.negation(pending)?)))
    }

    // "Atoms: true, false, (predicate), `(forall x : T @ p)` and the same with exists and exists1 .."
    fn atom(&mut self, inside: Inside) -> Read<Predicate> {
        if self.is("true") || self.is("false") {
            let truth = self.is("true");
            self.step();
            return Ok(Predicate::Constant(truth));
        }
        if !self.is("(") {
            return self.comparison(inside);
        }
        let open = inside.deeper(self.step())?;
        let inner = match self.quantifier() {
            Some(quantifier) => self.quantified(quantifier, open)?,
            None => self.predicate(open)?,
        };
        self.take(")")?;
        Ok(inner)
    }

    fn quantifier(&self) -> Option<Quantifier> {
        let words = [("forall", Quantifier::Forall), ("exists", Quantifier::Exists), ("exists1", Quantifier::Exists1)];
        words.iter().find(|(word, _)| self.is(word)).map(|(_, quantifier)| *quantifier)
    }

    // "T a given set or range"
    fn quantified(&mut self, quantifier: Quantifier, inside: Inside) -> Read<Predicate> {
        self.step();
        let bound = self.plain_name()?;
        let reach = inside.binding(bound)?;
        self.take(":")?;
        let over = if self.begins_range() { Type::Range(self.range()?) } else { Type::Given(self.used_name()?) };
        self.take("@")?;
        let body = Box::new(self.predicate(reach)?);
        Ok(Predicate::Quantified { quantifier, bound, over, body })
    }

    // "t = t, t /= t, t < t, t <= t; t in t, t in a..b, t |-> t in t, and these with notin"
    fn comparison(&mut self, inside: Inside) -> Read<Predicate> {
        let left = self.term(inside)?;
        let signs = [("=", Comparison::Equal), ("/=", Comparison::Unequal), ("<", Comparison::Less), ("<=", Comparison::AtMost)];
        if let Some((_, comparison)) = signs.iter().find(|(sign, _)| self.is(sign)) {
            let place = self.step();
            return Ok(Predicate::Compared { comparison: *comparison, place, left, right: self.term(inside)? });
        }
        if self.is("|->") {
            self.step();
            let second = self.term(inside)?;
            let (negated, place) = self.membership()?;
            self.no_range()?;
            return Ok(Predicate::PairIn { negated, place, first: left, second, set: self.term(inside)? });
        }
        let (negated, place) = self.membership()?;
        if self.range_follows() {
            return Ok(Predicate::InRange { negated, place, member: left, range: self.range()? });
        }
        Ok(Predicate::InSet { negated, place, member: left, set: self.term(inside)? })
    }

    fn membership(&mut self) -> Read<(bool, usize)> {
        let negated = self.is("notin");
        if negated || self.is("in") { Ok((negated, self.step())) } else { self.wrong() }
    }

    // How many symbols stand before the .. of a range, if a number and .. follow.
    fn before_dots(&self) -> Option<usize> {
        let sign = if self.is("-") { 1 } else { 0 };
        let number = matches!(self.ahead(sign), Some(Kind::Number(_)));
        if number && self.is_ahead(sign + 1, "..") { Some(sign + 1) } else { None }
    }

    // "after in or notin a - is a range end exactly if a number and .. follow it"
    fn range_follows(&self) -> bool {
        self.before_dots().is_some()
    }

    // A pair is in a term only, so the .. of a range is at fault; a - before it is a range end all the same and is not counted.
    fn no_range(&self) -> Read<()> {
        match self.before_dots() {
            Some(k) => fault(4, self.place_ahead(k)),
            None => Ok(()),
        }
    }

    // "`* div mod inter` bind tighter than `+ - union minus`, all to the left"
    fn term(&mut self, inside: Inside) -> Read<Term> {
        let mut left = self.product(inside)?;
        let operators = [("+", Operator::Plus), ("-", Operator::Minus), ("union", Operator::Union), ("minus", Operator::SetMinus)];
        while let Some((_, operator)) = operators.iter().find(|(spelling, _)| self.is(spelling)) {
            let place = self.step();
            let right = self.product(inside)?;
            left = Term::Binary { operator: *operator, place, left: Box::new(left), right: Box::new(right) };
        }
        Ok(left)
    }

    fn product(&mut self, inside: Inside) -> Read<Term> {
        let mut left = self.prefixed(inside)?;
        loop {
            let boxed = Box::new(left);
            left = if self.is("*") || self.is("inter") {
                let operator = if self.is("*") { Operator::Times } else { Operator::Inter };
                let place = self.step();
                Term::Binary { operator, place, left: boxed, right: Box::new(self.prefixed(inside)?) }
            } else if self.is("div") || self.is("mod") {
                // "Right of div and mod stands a number, which may carry -."
                let modulo = self.is("mod");
                let place = self.step();
                let (divisor, divisor_place) = self.signed_number()?;
                Term::Divide { modulo, place, left: boxed, divisor, divisor_place }
            } else {
                return Ok(*boxed);
            };
        }
    }

    // "prefixes `- # dom ran` tighter still"
    fn prefixed(&mut self, inside: Inside) -> Read<Term> {
        let prefixes = [("-", Prefix::Minus), ("#", Prefix::Size), ("dom", Prefix::Dom), ("ran", Prefix::Ran)];
        let Some((_, prefix)) = prefixes.iter().find(|(spelling, _)| self.is(spelling)) else { return self.primary(inside) };
        let place = self.step();
        let pending = inside.deeper(place)?;
        Ok(Term::Prefix { prefix: *prefix, place, operand: Box::new(self.prefixed(pending)?) })
    }

    // "Primary: number, name, [t], {t, ...}, {t |-> t, ...}, {x : G | p}, `empty G`, `empty G H`."
    fn primary(&mut self, inside: Inside) -> Read<Term> {
        match self.ahead(0) {
            Some(Kind::Number(_)) => Ok(Term::Number(self.number()?.0)),
            Some(Kind::Name(_)) => Ok(Term::Name(self.used_name()?)),
            Some(Kind::Fixed("empty")) => self.empty(),
            Some(Kind::Fixed("{")) => self.brace(inside),
            Some(Kind::Fixed("[")) => {
                let open = inside.deeper(self.step())?;
                let inner = self.term(open)?;
                self.take("]")?;
                Ok(Term::Bracket(Box::new(inner)))
            }
            _ => self.wrong(),
        }
    }

    fn empty(&mut self) -> Read<Term> {
        let place = self.step();
        let from = self.used_name()?;
        match self.ahead(0) {
            Some(Kind::Name(_)) => Ok(Term::EmptyPairs { place, from, to: self.used_name()? }),
            _ => Ok(Term::Empty(from)),
        }
    }

    fn brace(&mut self, inside: Inside) -> Read<Term> {
        let place = self.step();
        let open = inside.deeper(place)?;
        let plain = matches!(self.ahead(0), Some(Kind::Name(name)) if name.is_plain());
        let inner = if plain && self.is_ahead(1, ":") { self.such(open)? } else { self.listed(place, open)? };
        self.take("}")?;
        Ok(inner)
    }

    // The x : G | p of {x : G | p}.
    fn such(&mut self, inside: Inside) -> Read<Term> {
        let bound = self.plain_name()?;
        let reach = inside.binding(bound)?;
        self.take(":")?;
        let given = self.used_name()?;
        self.take("|")?;
        Ok(Term::Such { bound, given, body: Box::new(self.predicate(reach)?) })
    }

    // The items of {t, ...} or {t |-> t, ...}: the first one decides which.
    fn listed(&mut self, place: usize, inside: Inside) -> Read<Term> {
        let first = self.term(inside)?;
        if self.is("|->") {
            let mut items = vec![self.pair(first, inside)?];
            while self.is(",") {
                self.step();
                let left = self.term(inside)?;
                items.push(self.pair(left, inside)?);
            }
            return Ok(Term::Pairs { place, items });
        }
        let mut items = vec![first];
        while self.is(",") {
            self.step();
            items.push(self.term(inside)?);
        }
        Ok(Term::Elements { place, items })
    }

    fn pair(&mut self, left: Term, inside: Inside) -> Read<(Term, Term)> {
        self.take("|->")?;
        Ok((left, self.term(inside)?))
    }
}
