// Random dossiers, right by form and mostly by names and types. The concrete side is the abstract one under other names and in another order, with
// a change here and there: so that all verdicts occur.
use crate::expressions::{Expressions, GivenSet, Scope, Shape};
use crate::random::Random;
use crate::scan::RESERVED;

// What kind of dossier is made.
#[derive(Clone, Copy)]
pub struct Plan {
    // the most bindings of a state's carriers
    pub bindings: usize,
    pub operations: usize,
    pub givens: usize,
    // of a hundred choices, how many take no heed of types and reach
    pub wild: usize,
    // the depth of predicates
    pub depth: usize,
}

const ODD_NAMES: [&str; 12] = ["ands", "exists2", "Ptrue", "p", "End", "P1", "inn", "wher", "abcdefghijklmnop", "Zz9", "trueP", "x0123456789abcde"];

// Names that differ from each other and from the reserved words.
struct Names {
    taken: Vec<String>,
}

impl Names {
    fn make(&mut self, random: &mut Random) -> String {
        loop {
            let length = *random.pick(&[1, 2, 2, 3, 5, 16]);
            let letters = b"abcdefghkmnprstxyzGHKPST0123456789";
            let made: String = (0..length).map(|k| letters[random.below(if k == 0 { 24 } else { letters.len() })] as char).collect();
            let name = if random.percent(8) { random.pick(&ODD_NAMES).to_string() } else { made };
            if !self.taken.contains(&name) && !RESERVED.contains(&name.as_str()) {
                self.taken.push(name.clone());
                return name;
            }
        }
    }
}

type Variables = Vec<(String, Shape)>;

// A state's variables with the endings of one of its roles.
fn ended(variables: &Variables, ending: &str) -> Variables {
    variables.iter().map(|(name, shape)| (format!("{name}{ending}"), *shape)).collect()
}

struct Maker<'a> {
    e: Expressions<'a>,
    plan: Plan,
    names: Names,
    givens: Vec<GivenSet>,
    fresh: Vec<String>,
    others: Vec<String>,
}

impl Maker<'_> {
    fn count(&self, g: usize) -> usize {
        self.givens[g].elements.len()
    }

    fn values(&self, shape: Shape) -> usize {
        match shape {
            Shape::Element(g) => self.count(g),
            Shape::Range(low, high) => (high - low + 1) as usize,
            Shape::Set(g) => 1 << self.count(g),
            Shape::Pairs("<->", g, h) => 1usize.checked_shl((self.count(g) * self.count(h)) as u32).unwrap_or(usize::MAX),
            Shape::Pairs("-+>", g, h) => (self.count(h) + 1).pow(self.count(g) as u32),
            Shape::Pairs(_, g, h) => self.count(h).pow(self.count(g) as u32),
        }
    }

    fn shape(&mut self) -> Shape {
        let low = *self.e.random.pick(&[0, 0, 0, 1, -1, -3, 5]);
        let range = Shape::Range(low, low + self.e.random.between(0, 4));
        if self.givens.is_empty() {
            return range;
        }
        let (g, h) = (self.e.random.below(self.givens.len()), self.e.random.below(self.givens.len()));
        match self.e.random.below(6) {
            0 | 1 => range,
            2 => Shape::Element(g),
            3 => Shape::Set(g),
            _ if self.count(g) * self.count(h) <= 16 => Shape::Pairs(*self.e.random.pick(&["<->", "-+>", "-->"]), g, h),
            _ => Shape::Element(h),
        }
    }

    // Variables whose carriers have a limited number of bindings together.
    fn variables(&mut self, most: usize, least: usize, limit: usize, ending: &str) -> Variables {
        let mut variables = Vec::new();
        let mut bindings = 1;
        for _ in 0..limit {
            let shape = self.shape();
            let more = self.values(shape);
            let stop = variables.len() >= least && self.e.random.percent(35);
            if stop {
                break;
            }
            let fits = bindings * more <= most;
            let shape = if fits { shape } else { Shape::Range(1, 1) };
            bindings *= if fits { more } else { 1 };
            let name = self.names.make(self.e.random);
            self.others.push(name.clone());
            variables.push((format!("{name}{ending}"), shape));
        }
        variables
    }

    fn scope(&self, names: Variables) -> Scope {
        Scope { givens: self.givens.clone(), names, fresh: self.fresh.clone(), bound: 0, wild: self.plan.wild, others: self.others.clone() }
    }

    fn declarations(&mut self, variables: &Variables) {
        let scope = self.scope(Vec::new());
        for (name, shape) in variables {
            self.e.put(&format!("{name} :"));
            self.e.put_type(*shape, &scope);
            self.e.put(";");
        }
    }

    // The same predicate for the abstract and the concrete names: the choices are the same, since they are made from the same numbers.
    fn mirrored(&mut self, abstract_names: Variables, concrete_names: Variables, depth: usize) -> (Vec<String>, Vec<String>) {
        let start = self.e.random.clone();
        let first = self.apart(abstract_names, depth);
        let behind = self.e.random.clone();
        *self.e.random = start;
        let second = self.apart(concrete_names, depth);
        *self.e.random = behind;
        (first, second)
    }

    // A predicate in symbols of its own.
    fn apart(&mut self, names: Variables, depth: usize) -> Vec<String> {
        let scope = self.scope(names);
        let before = std::mem::take(&mut self.e.out);
        self.e.predicate(&scope, depth);
        std::mem::replace(&mut self.e.out, before)
    }

    // A predicate with a change: one more condition, one more case, or another one.
    fn changed(&mut self, symbols: Vec<String>, names: &Variables, share: usize) -> Vec<String> {
        if !self.e.random.percent(share) {
            return symbols;
        }
        let other = self.apart(names.clone(), 1);
        let word = *self.e.random.pick(&["and", "or", "and not", "other"]);
        if word == "other" {
            return other;
        }
        let mut out = vec!["(".to_string()];
        out.extend(symbols);
        out.push(")".to_string());
        out.extend(word.split(' ').map(str::to_string));
        out.push("(".to_string());
        out.extend(other);
        out.push(")".to_string());
        out
    }

    fn body(&mut self, words: &str, predicate: Vec<String>) {
        self.e.put(words);
        self.e.out.extend(predicate);
        self.e.put("end");
    }

    // "k = m" for each variable and the one that stands for it, in some order; now and then one is left out, or more is asked.
    fn retrieve(&mut self, abstract_names: &Variables, concrete_names: &Variables) -> Vec<String> {
        let mut symbols = vec!["true".to_string()];
        for ((a, _), (c, _)) in abstract_names.iter().zip(concrete_names) {
            if !self.e.random.percent(7) {
                symbols.extend(format!("and {c} = {a}").split(' ').map(str::to_string));
            }
        }
        let both = [abstract_names.clone(), concrete_names.clone()].concat();
        self.changed(symbols, &both, 12)
    }

    // What an operation does to each variable: it keeps it, gives it a value, or leaves it free.
    fn effect(&mut self, abstract_names: &Variables, concrete_names: &Variables) -> (Vec<String>, Vec<String>) {
        let mut effects = (Vec::new(), Vec::new());
        for ((a, _), (c, _)) in abstract_names.iter().zip(concrete_names) {
            if self.e.random.percent(55) {
                effects.0.extend(format!("and {a}' = {a}").split(' ').map(str::to_string));
                effects.1.extend(format!("and {c}' = {c}").split(' ').map(str::to_string));
            }
        }
        effects
    }

    fn operation(&mut self, name: &str, abstract_names: &Variables, concrete_names: &Variables) {
        let inputs = self.variables(4, 0, 3, "?");
        let outputs = self.variables(4, 0, 3, "!");
        let mut parameters = [inputs, outputs].concat();
        self.e.random.shuffle(&mut parameters);
        self.e.put(&format!("op {name}"));
        self.declarations(&parameters);
        let reach = |names: &Variables| [names.clone(), ended(names, "'"), parameters.clone()].concat();
        let depth = self.plan.depth;
        let (mut on_abstract, mut on_concrete) = self.mirrored(reach(abstract_names), reach(concrete_names), depth);
        let effects = self.effect(abstract_names, concrete_names);
        on_abstract.extend(effects.0);
        on_concrete.extend(effects.1);
        let on_concrete = self.changed(on_concrete, &reach(concrete_names), 60);
        self.e.put("abstract");
        self.e.out.extend(on_abstract);
        self.body("concrete", on_concrete);
    }

    fn given_sets(&mut self) {
        for _ in 0..self.plan.givens {
            let name = self.names.make(self.e.random);
            let count = *self.e.random.pick(&[1, 2, 2, 2, 2, 2, 3, 3, 3, 3, 4, 4, 5, 8]);
            let elements: Vec<String> = (0..count).map(|_| self.names.make(self.e.random)).collect();
            self.others.push(name.clone());
            self.others.push(elements[0].clone());
            self.givens.push(GivenSet { name, elements });
        }
    }

    fn contents(&mut self, operations: &[String]) {
        self.e.put("contents");
        for g in 0..self.givens.len() {
            self.e.put(&format!("given {}", self.givens[g].name));
        }
        self.e.put("abstract concrete ainit cinit retrieve");
        for name in operations {
            self.e.put(&format!("op {name}"));
        }
        self.e.put("end");
        for given in self.givens.clone() {
            self.e.put(&format!("given {} {} end", given.name, given.elements.join(" ")));
        }
    }

    fn dossier(&mut self) {
        self.given_sets();
        self.fresh = (0..5).map(|_| self.names.make(self.e.random)).collect();
        let operations: Vec<String> = (0..self.plan.operations).map(|_| self.names.make(self.e.random)).collect();
        self.contents(&operations);
        self.others.extend(operations.iter().cloned());
        let abstract_names = self.variables(self.plan.bindings, 1, 4, "");
        let concrete_names: Variables = abstract_names.iter().map(|(_, shape)| (self.names.make(self.e.random), *shape)).collect();
        let mut declared = concrete_names.clone();
        self.e.random.shuffle(&mut declared);
        let invariant = self.e.random.percent(40);
        let (mut on_abstract, mut on_concrete) = (vec!["true".to_string()], vec!["true".to_string()]);
        if invariant {
            (on_abstract, on_concrete) = self.mirrored(abstract_names.clone(), concrete_names.clone(), 1);
        }
        self.e.put("abstract");
        self.declarations(&abstract_names);
        self.body("where", on_abstract);
        self.e.put("concrete");
        self.declarations(&declared);
        self.body("where", on_concrete);
        let (ainit, cinit) = self.mirrored(abstract_names.clone(), concrete_names.clone(), 1);
        let cinit = self.changed(cinit, &concrete_names, 30);
        self.body("ainit where", ainit);
        self.body("cinit where", cinit);
        let retrieve = self.retrieve(&abstract_names, &concrete_names);
        self.body("retrieve where", retrieve);
        for name in &operations {
            self.operation(name, &abstract_names, &concrete_names);
        }
    }
}

// The symbols of a random dossier.
pub fn dossier(random: &mut Random, plan: Plan) -> Vec<String> {
    let e = Expressions { random, out: Vec::new() };
    let mut maker = Maker { e, plan, names: Names { taken: Vec::new() }, givens: Vec::new(), fresh: Vec::new(), others: Vec::new() };
    maker.dossier();
    maker.e.out
}

pub fn small_plan(random: &mut Random) -> Plan {
    Plan {
        bindings: *random.pick(&[2, 4, 4, 8, 8, 12, 16, 27]),
        operations: *random.pick(&[0, 1, 1, 1, 2, 2, 3]),
        givens: *random.pick(&[0, 1, 1, 2, 2, 3]),
        wild: 0,
        depth: *random.pick(&[1, 1, 2, 2, 3]),
    }
}

// What an operation does to a set, and to the number that counts it.
const COUNTED: [(&str, &str); 12] = [
    ("# m' = # m + 1", "k' = k + 1"),
    ("m' = empty G", "k' = 0"),
    ("m' = m union { x? }", "k' = k or k' = k + 1"),
    ("m' = m and y! = # m", "k' = k and y! = k"),
    ("x? in m and m' = m minus { x? }", "0 < k and k' = k - 1"),
    ("x? notin m and m' = m union { x? }", "k' = k + 1"),
    ("# m' <= # m", "k' <= k"),
    ("# m' < # m and y! = # m - # m'", "k' < k and y! = k - k'"),
    ("( exists z : G @ z in m and m' = m minus { z } )", "k' = k - 1"),
    ("m' = { z : G | z notin m }", "k' = k + k - k"),
    ("m inter m' = empty G", "k' = 0 or k = 0"),
    ("true", "true"),
];

// A set on the abstract side and its size on the concrete one: an operation's two sides fit each other, or come from two operations.
pub fn counted(random: &mut Random) -> Vec<String> {
    let elements = 1 + random.below(4);
    let largest = if random.percent(85) { elements } else { random.below(5) };
    let operations = 1 + random.below(3);
    let invariant = *random.pick(&["true", "true", "# m < 3", "m /= empty G"]);
    let init = random.pick(&[("m = empty G", "k = 0"), ("true", "true"), ("# m <= 1", "k < 2"), ("m = empty G", "k <= 1"), ("false", "false"), ("m = { g1 }", "k = 1")]);
    let retrieve = *random.pick(&["k = # m", "k = # m", "k = # m", "# m <= k", "true", "k + 1 = # m"]);
    let mut contents = "contents given G abstract concrete ainit cinit retrieve".to_string();
    let mut bodies = String::new();
    for o in 1..=operations {
        let first = random.pick(&COUNTED);
        let second = if random.percent(65) { first } else { random.pick(&COUNTED) };
        let outputs = if random.percent(50) { "y! : 0 .. 4 ; x? : G ;" } else { "x? : G ; y! : 0 .. 3 ;" };
        contents += &format!(" op o{o}");
        bodies += &format!(" op o{o} {outputs} abstract {} concrete {} end", first.0, second.1);
    }
    let given: String = (1..=elements).map(|k| format!(" g{k}")).collect();
    let text = format!(
        "{contents} end given G{given} end abstract m : P G ; where {invariant} end concrete k : 0 .. {largest} ; where true end \
         ainit where {} end cinit where {} end retrieve where {retrieve} end{bodies}",
        init.0, init.1
    );
    text.split(' ').map(|symbol| symbol.to_string()).collect()
}

// A dossier with one small predicate whose parts take little heed of types and reach: faults inside faults.
pub fn tangled(random: &mut Random) -> Vec<String> {
    let words = |list: &str| list.split(' ').map(str::to_string).collect::<Vec<String>>();
    let givens = vec![GivenSet { name: "G".to_string(), elements: words("g1 g2 g3 g4 g5") }, GivenSet { name: "H".to_string(), elements: words("h1 h2") }];
    let state: Variables = vec![("m".to_string(), Shape::Set(1)), ("r".to_string(), Shape::Pairs("-->", 1, 1)), ("a".to_string(), Shape::Range(0, 1))];
    let parameters = vec![("x?".to_string(), Shape::Element(1)), ("y!".to_string(), Shape::Range(0, 1))];
    let names = [state.clone(), ended(&state, "'"), parameters].concat();
    let wild = *random.pick(&[5, 15, 30]);
    let scope = Scope { givens, names, fresh: words("b c d e"), bound: 0, wild, others: words("k o G m x y nobody g1") };
    let depth = 1 + random.below(2);
    let mut e = Expressions { random, out: Vec::new() };
    e.put("contents given G given H abstract concrete ainit cinit retrieve op o end given G g1 g2 g3 g4 g5 end given H h1 h2 end");
    e.put("abstract m : P H ; r : H --> H ; a : 0 .. 1 ; where true end concrete k : 0 .. 1 ; where true end");
    e.put("ainit where a = 0 and m = empty H and dom r = { h1 , h2 } end cinit where k = 0 end retrieve where a = k end op o x? : H ; y! : 0 .. 1 ; abstract");
    e.predicate(&scope, depth);
    e.put("concrete k' = k end");
    e.out
}

// The text of some symbols: blanks where they are needed, and others in one of several habits.
pub fn spelled(random: &mut Random, symbols: &[String]) -> Vec<u8> {
    let habit = random.below(3);
    let mut text: Vec<u8> = Vec::new();
    for symbol in symbols {
        let alphanumeric = |byte: Option<&u8>| byte.is_some_and(|b| b.is_ascii_alphanumeric());
        let needed = alphanumeric(text.last()) && alphanumeric(symbol.as_bytes().first());
        let blanks: &[u8] = match habit {
            0 if !needed => b"",
            1 => *random.pick(&[&b" "[..], b"\n", b"  ", b" \n "]),
            _ => b" ",
        };
        text.extend(blanks);
        text.extend(symbol.as_bytes());
    }
    if random.percent(70) {
        text.push(b'\n');
    }
    text
}
