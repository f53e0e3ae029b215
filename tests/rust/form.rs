// Numbers 4, 5 and 6 of document 01 outside predicates: contents, bodies, declarations, types.
//
// The reader takes the symbols from left to right and stops at the first fault that it meets. Every choice is made by looking at symbols that are
// there, and every piece of form that it begins can be completed; so the symbol that it cannot take is the first one such that no dossier begins
// with the symbols up to it (number 4). Numbers 5 and 6 are met at their own symbols, on the way.
use crate::scan::{fault, Fault, Kind, Name, Symbol};
use crate::tree::{Arrow, Declaration, Dossier, Given, Operation, Predicate, Range, State, Type, Use};

pub const GIVEN_SETS: usize = 8;
pub const ELEMENTS: usize = 8;
pub const VARIABLES: usize = 8;
pub const INPUTS: usize = 3;
pub const OUTPUTS: usize = 3;
pub const OPERATIONS: usize = 16;

pub struct Reader<'a> {
    symbols: &'a [Symbol],
    next: usize,
    // the text's length
    end: usize,
}

// What is read, or the first fault.
pub type Read<T> = Result<T, Fault>;

impl<'a> Reader<'a> {
    // The kind of the symbol k behind the next one.
    pub fn ahead(&self, k: usize) -> Option<Kind> {
        self.symbols.get(self.next + k).map(|symbol| symbol.kind)
    }

    // The place of the symbol k behind the next one, or the text's end.
    pub fn place_ahead(&self, k: usize) -> usize {
        self.symbols.get(self.next + k).map_or(self.end, |symbol| symbol.place)
    }

    pub fn place(&self) -> usize {
        self.place_ahead(0)
    }

    pub fn is(&self, spelling: &str) -> bool {
        self.is_ahead(0, spelling)
    }

    pub fn is_ahead(&self, k: usize, spelling: &str) -> bool {
        matches!(self.ahead(k), Some(Kind::Fixed(s)) if s == spelling)
    }

    // "The first symbol such that no dossier, by form alone, begins with the symbols up to and including it; or the text's end, its length."
    pub fn wrong<T>(&self) -> Read<T> {
        fault(4, self.place())
    }

    pub fn step(&mut self) -> usize {
        let place = self.place();
        self.next += 1;
        place
    }

    pub fn take(&mut self, spelling: &str) -> Read<usize> {
        if self.is(spelling) { Ok(self.step()) } else { self.wrong() }
    }

    fn name_where(&mut self, suits: fn(&Name) -> bool) -> Read<Use> {
        match self.ahead(0) {
            Some(Kind::Name(name)) if suits(&name) => Ok(Use { name, place: self.step() }),
            _ => self.wrong(),
        }
    }

    // "A wrong ending is number 4 where a name is declared or listed, 9 where it is used."
    pub fn plain_name(&mut self) -> Read<Use> {
        self.name_where(Name::is_plain)
    }

    pub fn used_name(&mut self) -> Read<Use> {
        self.name_where(|_| true)
    }

    // "zero or more between an operation's name and its `abstract`, where names end in ? (input) or ! (output)"
    fn parameter_name(&mut self) -> Read<Use> {
        self.name_where(|name| name.ending == b'?' || name.ending == b'!')
    }

    pub fn number(&mut self) -> Read<(i64, usize)> {
        match self.ahead(0) {
            Some(Kind::Number(n)) => Ok((n, self.step())),
            _ => self.wrong(),
        }
    }

    // A number that may carry -, with the number's own place.
    pub fn signed_number(&mut self) -> Read<(i64, usize)> {
        let negative = self.is("-");
        if negative {
            self.step();
        }
        let (n, place) = self.number()?;
        Ok((if negative { -n } else { n }, place))
    }

    pub fn range(&mut self) -> Read<Range> {
        let (low, _) = self.signed_number()?;
        let place = self.take("..")?;
        let (high, _) = self.signed_number()?;
        Ok(Range { low, high, place })
    }

    pub fn begins_range(&self) -> bool {
        self.is("-") || matches!(self.ahead(0), Some(Kind::Number(_)))
    }

    fn arrow(&self) -> Option<Arrow> {
        let arrows = [("<->", Arrow::Relations), ("-+>", Arrow::Partial), ("-->", Arrow::Total)];
        arrows.iter().find(|(spelling, _)| self.is(spelling)).map(|(_, arrow)| *arrow)
    }

    // "A given set; a range a..b (ends may carry -); `P G`; `G <-> H` relations; `G -+> H` partial functions; `G --> H` total functions."
    fn type_of(&mut self) -> Read<Type> {
        if self.begins_range() {
            return Ok(Type::Range(self.range()?));
        }
        if self.is("P") {
            self.step();
            return Ok(Type::Power(self.used_name()?));
        }
        let from = self.used_name()?;
        match self.arrow() {
            None => Ok(Type::Given(from)),
            Some(arrow) => {
                let place = self.step();
                Ok(Type::Arrow { arrow, place, from, to: self.used_name()? })
            }
        }
    }

    // The rest of "Declarations are `name : type ;`".
    fn declared(&mut self, name: Use) -> Read<Declaration> {
        self.take(":")?;
        let of = self.type_of()?;
        self.take(";")?;
        Ok(Declaration { name, of })
    }

    // "the name of the first one over, in contents or bodies"
    fn at_most(count: usize, limit: usize, name: Use) -> Read<()> {
        if count >= limit { fault(6, name.place) } else { Ok(()) }
    }

    // "zero or more `given NAME`", "zero or more `op NAME`" in the contents
    fn entries(&mut self, word: &str, limit: usize) -> Read<Vec<Use>> {
        let mut entries = Vec::new();
        while self.is(word) {
            self.step();
            let name = self.plain_name()?;
            Self::at_most(entries.len(), limit, name)?;
            entries.push(name);
        }
        Ok(entries)
    }

    // "A given set lists one or more elements."
    fn given(&mut self, before: usize) -> Read<Given> {
        let place = self.take("given")?;
        let name = self.plain_name()?;
        Self::at_most(before, GIVEN_SETS, name)?;
        let mut elements = vec![self.plain_name()?];
        while !self.is("end") {
            let element = self.plain_name()?;
            Self::at_most(elements.len(), ELEMENTS, element)?;
            elements.push(element);
        }
        self.take("end")?;
        Ok(Given { place, name, elements })
    }

    // "one or more in a state"
    fn variables(&mut self) -> Read<Vec<Declaration>> {
        let mut variables = Vec::new();
        while variables.is_empty() || !self.is("where") {
            let name = self.plain_name()?;
            Self::at_most(variables.len(), VARIABLES, name)?;
            variables.push(self.declared(name)?);
        }
        Ok(variables)
    }

    fn state(&mut self, word: &str) -> Read<State> {
        let place = self.take(word)?;
        let variables = self.variables()?;
        self.take("where")?;
        let predicate = self.whole_predicate()?;
        self.take("end")?;
        Ok(State { place, variables, predicate })
    }

    // ainit, cinit, retrieve
    fn plain_body(&mut self, word: &str) -> Read<Predicate> {
        self.take(word)?;
        self.take("where")?;
        let predicate = self.whole_predicate()?;
        self.take("end")?;
        Ok(predicate)
    }

    fn parameters(&mut self) -> Read<Vec<Declaration>> {
        let mut parameters: Vec<Declaration> = Vec::new();
        while !self.is("abstract") {
            let name = self.parameter_name()?;
            let limit = if name.name.ending == b'?' { INPUTS } else { OUTPUTS };
            let alike = parameters.iter().filter(|p| p.name.name.ending == name.name.ending).count();
            Self::at_most(alike, limit, name)?;
            parameters.push(self.declared(name)?);
        }
        Ok(parameters)
    }

    fn operation(&mut self, before: usize) -> Read<Operation> {
        let place = self.take("op")?;
        let name = self.plain_name()?;
        Self::at_most(before, OPERATIONS, name)?;
        let parameters = self.parameters()?;
        self.take("abstract")?;
        let abstract_predicate = self.whole_predicate()?;
        self.take("concrete")?;
        let concrete_predicate = self.whole_predicate()?;
        self.take("end")?;
        Ok(Operation { place, name, parameters, abstract_predicate, concrete_predicate })
    }

    // "Contents: zero or more `given NAME`, the five fixed words, zero or more `op NAME`, `end`. Bodies come in that sequence of kinds."
    fn dossier(&mut self) -> Read<Dossier> {
        self.take("contents")?;
        let given_entries = self.entries("given", GIVEN_SETS)?;
        for word in ["abstract", "concrete", "ainit", "cinit", "retrieve"] {
            self.take(word)?;
        }
        let operation_entries = self.entries("op", OPERATIONS)?;
        self.take("end")?;
        let mut givens = Vec::new();
        while self.is("given") {
            givens.push(self.given(givens.len())?);
        }
        let abstract_state = self.state("abstract")?;
        let concrete_state = self.state("concrete")?;
        let ainit = self.plain_body("ainit")?;
        let cinit = self.plain_body("cinit")?;
        let retrieve = self.plain_body("retrieve")?;
        let mut operations = Vec::new();
        while self.is("op") {
            operations.push(self.operation(operations.len())?);
        }
        if self.ahead(0).is_some() {
            return self.wrong();
        }
        let end = self.end;
        Ok(Dossier { given_entries, operation_entries, givens, abstract_state, concrete_state, ainit, cinit, retrieve, operations, end })
    }
}

// The dossier that the symbols are by form, or the first of numbers 4, 5 and 6.
pub fn read(symbols: &[Symbol], end: usize) -> Read<Dossier> {
    Reader { symbols, next: 0, end }.dossier()
}
