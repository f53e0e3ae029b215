// Random terms and predicates over names with types, as lists of symbols.
use crate::random::Random;

// The type of a generated variable. Given sets by their place.
#[derive(Clone, Copy, PartialEq, Debug)]
pub enum Shape {
    Element(usize),
    Range(i64, i64),
    Set(usize),
    // the arrow's mark
    Pairs(&'static str, usize, usize),
}

// What a term is to be.
#[derive(Clone, Copy, PartialEq, Debug)]
pub enum Wanted {
    Number,
    Element(usize),
    Set(usize),
    Pairs(usize, usize),
}

fn wanted(shape: Shape) -> Wanted {
    match shape {
        Shape::Element(g) => Wanted::Element(g),
        Shape::Range(..) => Wanted::Number,
        Shape::Set(g) => Wanted::Set(g),
        Shape::Pairs(_, g, h) => Wanted::Pairs(g, h),
    }
}

#[derive(Clone)]
pub struct GivenSet {
    pub name: String,
    pub elements: Vec<String>,
}

// The names in reach of a predicate, and what is left of its depth.
#[derive(Clone)]
pub struct Scope {
    pub givens: Vec<GivenSet>,
    pub names: Vec<(String, Shape)>,
    // names that nothing has, for bound names
    pub fresh: Vec<String>,
    pub bound: usize,
    // of a hundred choices, how many take no heed of types and reach
    pub wild: usize,
    // other names of the dossier, for wild choices
    pub others: Vec<String>,
}

pub struct Expressions<'a> {
    pub random: &'a mut Random,
    pub out: Vec<String>,
}

impl Expressions<'_> {
    pub fn put(&mut self, symbols: &str) {
        self.out.extend(symbols.split(' ').map(str::to_string));
    }

    fn put_number(&mut self, n: i64) {
        if n < 0 {
            self.put("-");
        }
        self.put(&n.abs().to_string());
    }

    fn put_range(&mut self, low: i64, high: i64) {
        self.put_number(low);
        self.put("..");
        self.put_number(high);
    }

    fn named(&mut self, scope: &Scope, is: impl Fn(&Shape) -> bool) -> Option<String> {
        let suiting: Vec<&String> = scope.names.iter().filter(|(_, shape)| is(shape)).map(|(name, _)| name).collect();
        if suiting.is_empty() { None } else { Some(self.random.pick(&suiting).to_string()) }
    }

    fn pairs_allowed(scope: &Scope, g: usize, h: usize) -> bool {
        scope.givens[g].elements.len() * scope.givens[h].elements.len() <= 16
    }

    // Some type that a term may have.
    fn any_wanted(&mut self, scope: &Scope) -> Wanted {
        if scope.givens.is_empty() || self.random.percent(30) {
            return Wanted::Number;
        }
        let (g, h) = (self.random.below(scope.givens.len()), self.random.below(scope.givens.len()));
        match self.random.below(3) {
            0 => Wanted::Element(g),
            1 => Wanted::Set(g),
            _ if Self::pairs_allowed(scope, g, h) || self.random.percent(scope.wild) => Wanted::Pairs(g, h),
            _ => Wanted::Set(h),
        }
    }

    // The type that is wanted, or in a wild choice any.
    fn perhaps_another(&mut self, want: Wanted, scope: &Scope) -> Wanted {
        if self.random.percent(scope.wild) { self.any_wanted(scope) } else { want }
    }

    pub fn term(&mut self, want: Wanted, scope: &Scope, depth: usize) {
        let want = self.perhaps_another(want, scope);
        let parts = if depth == 0 { 1 } else { *self.random.pick(&[1, 1, 1, 2, 2, 3]) };
        for k in 0..parts {
            if k > 0 {
                self.operator(want);
            }
            if matches!(want, Wanted::Element(_)) {
                return self.primary(want, scope, depth);
            }
            self.operand(want, scope, depth);
        }
    }

    fn operator(&mut self, want: Wanted) {
        let operator = match want {
            Wanted::Number => *self.random.pick(&["+", "-", "*", "+", "-"]),
            _ => *self.random.pick(&["union", "minus", "inter"]),
        };
        self.put(operator);
    }

    // An operand of an operator: a primary, or prefixes before one, or a division.
    fn operand(&mut self, want: Wanted, scope: &Scope, depth: usize) {
        if depth > 0 && self.random.percent(35) {
            return self.composed(want, scope, depth - 1);
        }
        self.primary(want, scope, depth);
    }

    fn composed(&mut self, want: Wanted, scope: &Scope, depth: usize) {
        match want {
            Wanted::Number => match self.random.below(4) {
                0 => {
                    self.put("-");
                    self.primary(want, scope, depth);
                }
                1 if !scope.givens.is_empty() => self.size(scope, depth),
                _ => {
                    self.primary(want, scope, depth);
                    let word = *self.random.pick(&["div", "mod"]);
                    self.put(word);
                    let zero = self.random.percent(scope.wild);
                    let divisor = if zero { 0 } else { *self.random.pick(&[-3, -2, -1, 1, 2, 3, 4, 7]) };
                    self.put_number(divisor);
                }
            },
            Wanted::Set(g) => self.side_of_pairs(g, scope, depth),
            _ => self.primary(want, scope, depth),
        }
    }

    fn size(&mut self, scope: &Scope, depth: usize) {
        let g = self.random.below(scope.givens.len());
        let h = self.random.below(scope.givens.len());
        let of = if self.random.percent(30) && Self::pairs_allowed(scope, g, h) { Wanted::Pairs(g, h) } else { Wanted::Set(g) };
        self.put("#");
        self.primary(of, scope, depth);
    }

    // dom or ran of some pairs from or to a given set, of a name where there is one and it is chosen.
    fn side_of_pairs(&mut self, g: usize, scope: &Scope, depth: usize) {
        let named = if self.random.percent(50) { self.named_pairs(scope, g) } else { None };
        if let Some((name, from)) = named {
            return self.put(&format!("{} {name}", if from { "dom" } else { "ran" }));
        }
        let h = self.random.below(scope.givens.len());
        if !Self::pairs_allowed(scope, g, h) {
            return self.primary(Wanted::Set(g), scope, depth);
        }
        let from = self.random.percent(50);
        self.put(if from { "dom" } else { "ran" });
        self.primary(if from { Wanted::Pairs(g, h) } else { Wanted::Pairs(h, g) }, scope, depth);
    }

    // A name of pairs from or to a given set.
    fn named_pairs(&mut self, scope: &Scope, g: usize) -> Option<(String, bool)> {
        let mut suiting = Vec::new();
        for (name, shape) in &scope.names {
            if let Shape::Pairs(_, from, to) = shape {
                if *from == g {
                    suiting.push((name.clone(), true));
                }
                if *to == g {
                    suiting.push((name.clone(), false));
                }
            }
        }
        if suiting.is_empty() { None } else { Some(self.random.pick(&suiting).clone()) }
    }

    fn primary(&mut self, want: Wanted, scope: &Scope, depth: usize) {
        let want = self.perhaps_another(want, scope);
        if self.random.percent(scope.wild) && !scope.others.is_empty() {
            let other = self.random.pick(&scope.others).clone();
            let ending = *self.random.pick(&["", "", "'", "?", "!"]);
            return self.put(&format!("{other}{ending}"));
        }
        if depth > 0 && self.random.percent(8) && !matches!(want, Wanted::Element(_)) {
            self.put("[");
            self.term(want, scope, depth - 1);
            return self.put("]");
        }
        if self.random.percent(65) {
            if let Some(name) = self.named(scope, |shape| wanted(*shape) == want) {
                return self.put(&name);
            }
        }
        match want {
            Wanted::Number => {
                let n = *self.random.pick(&[0, 1, 1, 2, 2, 3, 4, 5, 7, 10]);
                self.put_number(n);
            }
            Wanted::Element(g) => {
                let element = self.random.pick(&scope.givens[g].elements).clone();
                self.put(&element);
            }
            Wanted::Set(g) => self.set(g, scope, depth),
            Wanted::Pairs(g, h) => self.pairs(g, h, scope),
        }
    }

    fn set(&mut self, g: usize, scope: &Scope, depth: usize) {
        match self.random.below(4) {
            0 => self.put(&format!("empty {}", scope.givens[g].name)),
            1 if depth > 0 && scope.bound < 3 && !scope.fresh.is_empty() => self.such(g, scope, depth - 1),
            _ => {
                self.put("{");
                for k in 0..*self.random.pick(&[1, 1, 2, 3]) {
                    if k > 0 {
                        self.put(",");
                    }
                    self.term(Wanted::Element(g), scope, 0);
                }
                self.put("}");
            }
        }
    }

    fn such(&mut self, g: usize, scope: &Scope, depth: usize) {
        let (bound, inner) = self.binder(scope, Shape::Element(g));
        self.put(&format!("{{ {bound} : {} |", scope.givens[g].name));
        self.predicate(&inner, depth);
        self.put("}");
    }

    fn pairs(&mut self, g: usize, h: usize, scope: &Scope) {
        if self.random.percent(25) {
            return self.put(&format!("empty {} {}", scope.givens[g].name, scope.givens[h].name));
        }
        self.put("{");
        for k in 0..*self.random.pick(&[1, 1, 2, 3]) {
            if k > 0 {
                self.put(",");
            }
            self.term(Wanted::Element(g), scope, 0);
            self.put("|->");
            self.term(Wanted::Element(h), scope, 0);
        }
        self.put("}");
    }

    // A bound name, and the names in reach with it.
    fn binder(&mut self, scope: &Scope, shape: Shape) -> (String, Scope) {
        let mut inner = scope.clone();
        let k = self.random.below(inner.fresh.len());
        let fresh = inner.fresh.remove(k);
        let wild = self.random.percent(scope.wild) && !scope.others.is_empty();
        let bound = if wild { self.random.pick(&scope.others).clone() } else { fresh };
        inner.names.push((bound.clone(), shape));
        inner.bound += 1;
        (bound, inner)
    }

    pub fn predicate(&mut self, scope: &Scope, depth: usize) {
        if depth == 0 {
            return self.comparison(scope, 0);
        }
        match self.random.below(14) {
            0 | 1 | 2 => self.joined("and", scope, depth),
            3 | 4 => self.joined("or", scope, depth),
            5 => self.joined("=>", scope, depth),
            6 => self.joined("<=>", scope, depth),
            7 => {
                self.put("not");
                self.comparison(scope, depth - 1);
            }
            8 | 9 if scope.bound < 3 && !scope.fresh.is_empty() => self.quantified(scope, depth - 1),
            10 => {
                self.put("(");
                self.predicate(scope, depth - 1);
                self.put(")");
            }
            _ => self.comparison(scope, depth),
        }
    }

    fn joined(&mut self, word: &str, scope: &Scope, depth: usize) {
        self.predicate(scope, depth - 1);
        self.put(word);
        self.predicate(scope, depth - 1);
    }

    fn quantified(&mut self, scope: &Scope, depth: usize) {
        let word = *self.random.pick(&["forall", "exists", "exists1"]);
        let low = self.random.between(-2, 2);
        let length = *self.random.pick(&[0, 0, 1, 1, 2, 2, 3, 3, 3, 63]);
        let over_given = !scope.givens.is_empty() && self.random.percent(50);
        let shape = if over_given { Shape::Element(self.random.below(scope.givens.len())) } else { Shape::Range(low, low + length) };
        let (bound, inner) = self.binder(scope, shape);
        self.put(&format!("( {word} {bound} :"));
        self.put_type(shape, scope);
        self.put("@");
        self.predicate(&inner, depth);
        self.put(")");
    }

    pub fn put_type(&mut self, shape: Shape, scope: &Scope) {
        let name = |g: usize| scope.givens[g].name.clone();
        match shape {
            Shape::Element(g) => self.put(&name(g)),
            Shape::Range(low, high) => self.put_range(low, high),
            Shape::Set(g) => self.put(&format!("P {}", name(g))),
            Shape::Pairs(arrow, g, h) => self.put(&format!("{} {arrow} {}", name(g), name(h))),
        }
    }

    // A comparison that says something of a name in reach, where there is one.
    fn comparison(&mut self, scope: &Scope, depth: usize) {
        if self.random.percent(3) {
            let word = *self.random.pick(&["true", "false"]);
            return self.put(word);
        }
        let shapes: Vec<Shape> = scope.names.iter().map(|(_, shape)| *shape).collect();
        let want = if shapes.is_empty() || self.random.percent(15) { self.any_wanted(scope) } else { wanted(*self.random.pick(&shapes)) };
        let belongs = *self.random.pick(&["in", "in", "notin"]);
        match (want, self.random.below(4)) {
            (Wanted::Number, 0) => {
                self.term(want, scope, depth);
                self.put(belongs);
                let low = self.random.between(-4, 4);
                let wild = self.random.percent(scope.wild);
                let length = if wild { *self.random.pick(&[-1, 63, 64]) } else { self.random.between(0, 5) };
                self.put_range(low, low + length);
            }
            (Wanted::Number, _) => {
                let sign = *self.random.pick(&["=", "/=", "<", "<=", "="]);
                self.two(want, sign, want, scope, depth);
            }
            (Wanted::Element(g), 0 | 1) => self.two(want, belongs, Wanted::Set(g), scope, depth),
            (Wanted::Set(g), 0 | 1) => self.two(Wanted::Element(g), belongs, want, scope, depth),
            (Wanted::Pairs(g, h), 0 | 1) => {
                self.two(Wanted::Element(g), "|->", Wanted::Element(h), scope, 0);
                self.put(belongs);
                self.term(want, scope, depth);
            }
            _ => {
                let sign = *self.random.pick(&["=", "=", "/="]);
                self.two(want, sign, want, scope, depth);
            }
        }
    }

    fn two(&mut self, left: Wanted, sign: &str, right: Wanted, scope: &Scope, depth: usize) {
        self.term(left, scope, depth);
        self.put(sign);
        self.term(right, scope, depth);
    }
}
