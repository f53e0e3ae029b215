// The obligations of document 01 and their order. The bindings of each group of variables are listed once; a place in the search order is the
// position of a binding of all groups, the last variable fastest, counted from 0 over the whole check.
use crate::meaning::{Environment, Value, World};
use crate::scan::Name;
use crate::tree::{Declaration, Dossier, Predicate};
use std::rc::Rc;

#[derive(Clone, Copy, PartialEq, Debug)]
pub enum Obligation {
    Initialisation,
    Applicability(usize),
    Correctness(usize),
}

// A case whose enumeration takes too long.
#[derive(Clone, Copy, PartialEq, Debug)]
pub struct LeftOut;

pub type Found<T> = Result<T, LeftOut>;

// The greatest number of pairs of states that are enumerated.
const STATE_PAIRS: usize = 1 << 20;

// A group of variables, and its bindings in the order of the search.
struct Group {
    names: Vec<Name>,
    bindings: Vec<Vec<Value>>,
}

impl Group {
    fn new<'a>(world: &World, declarations: impl Iterator<Item = &'a Declaration>) -> Group {
        let mut names = Vec::new();
        let mut bindings = vec![Vec::new()];
        for declaration in declarations {
            names.push(declaration.name.name);
            bindings = extended(&bindings, &world.carrier(&declaration.of));
        }
        Group { names, bindings }
    }

    fn count(&self) -> usize {
        self.bindings.len()
    }

    fn put(&self, k: usize, environment: &mut Environment) {
        environment.extend(self.names.iter().copied().zip(self.bindings[k].iter().copied()));
    }

    // The same binding for the variables after the operation.
    fn put_primed(&self, k: usize, environment: &mut Environment) {
        environment.extend(self.names.iter().map(Name::primed).zip(self.bindings[k].iter().copied()));
    }
}

// Each binding with each value of one more variable, which is the fastest.
fn extended(bindings: &[Vec<Value>], carrier: &[Value]) -> Vec<Vec<Value>> {
    let mut longer = Vec::with_capacity(bindings.len() * carrier.len());
    for binding in bindings {
        for value in carrier {
            let mut next = binding.clone();
            next.push(*value);
            longer.push(next);
        }
    }
    longer
}

// A step of one side of an operation: numbers of bindings of the outputs and of the after state.
type Step = (usize, usize);

// One side of an operation: the steps from a binding of the state before by a binding of the inputs, once they are known.
struct Steps {
    known: Vec<Option<Rc<Vec<Step>>>>,
}

struct Parameters {
    inputs: Group,
    outputs: Group,
    abstract_steps: Steps,
    concrete_steps: Steps,
}

// One side of a dossier: which bindings are states, and which are initial states.
struct Side {
    group: Group,
    states: Vec<bool>,
    initial: Vec<bool>,
}

pub struct Check {
    dossier: Rc<Dossier>,
    world: World,
    abstract_side: Side,
    concrete_side: Side,
    // whether two bindings are related, once it is known
    related: Vec<Option<bool>>,
    operations: Vec<Parameters>,
}

// A binding of the search order: its obligation, and the value of each variable by its name.
pub struct Visited {
    pub obligation: Obligation,
    pub binding: Environment,
}

#[derive(Clone, Copy, PartialEq)]
enum Which {
    Abstract,
    Concrete,
}

// "A state is a binding of its variables in their carriers that meets its predicate. Init and retrieve include the states they speak of."
fn side(world: &mut World, variables: &[Declaration], state: &Predicate, init: &Predicate) -> Found<Side> {
    let group = Group::new(world, variables.iter());
    let (mut states, mut initial) = (Vec::new(), Vec::new());
    for k in 0..group.count() {
        let mut environment = Vec::new();
        group.put(k, &mut environment);
        let is_state = world.predicate(state, &mut environment);
        states.push(is_state);
        initial.push(is_state && world.predicate(init, &mut environment));
        if world.over() {
            return Err(LeftOut);
        }
    }
    Ok(Side { group, states, initial })
}

impl Check {
    pub fn new(dossier: Rc<Dossier>, limit: u64) -> Found<Check> {
        let mut world = World::new(dossier.clone(), limit);
        let (abstract_state, concrete_state) = (&dossier.abstract_state, &dossier.concrete_state);
        let abstract_side = side(&mut world, &abstract_state.variables, &abstract_state.predicate, &dossier.ainit)?;
        let concrete_side = side(&mut world, &concrete_state.variables, &concrete_state.predicate, &dossier.cinit)?;
        let pairs = abstract_side.group.count() * concrete_side.group.count();
        if pairs > STATE_PAIRS {
            return Err(LeftOut);
        }
        let mut operations = Vec::new();
        for operation in &dossier.operations {
            let inputs = Group::new(&world, operation.parameters.iter().filter(|p| p.name.name.ending == b'?'));
            let outputs = Group::new(&world, operation.parameters.iter().filter(|p| p.name.name.ending == b'!'));
            let abstract_steps = Steps { known: vec![None; abstract_side.group.count() * inputs.count()] };
            let concrete_steps = Steps { known: vec![None; concrete_side.group.count() * inputs.count()] };
            operations.push(Parameters { inputs, outputs, abstract_steps, concrete_steps });
        }
        Ok(Check { dossier, world, abstract_side, concrete_side, related: vec![None; pairs], operations })
    }

    fn truth(&mut self, predicate: &Predicate, environment: &mut Environment) -> Found<bool> {
        let truth = self.world.predicate(predicate, environment);
        if self.world.over() { Err(LeftOut) } else { Ok(truth) }
    }

    fn abstract_count(&self) -> usize {
        self.abstract_side.group.count()
    }

    fn concrete_count(&self) -> usize {
        self.concrete_side.group.count()
    }

    // "Related: the two states meet retrieve."
    fn related(&mut self, a: usize, c: usize) -> Found<bool> {
        if !self.abstract_side.states[a] || !self.concrete_side.states[c] {
            return Ok(false);
        }
        let k = a * self.concrete_count() + c;
        if let Some(known) = self.related[k] {
            return Ok(known);
        }
        let mut environment = Vec::new();
        self.abstract_side.group.put(a, &mut environment);
        self.concrete_side.group.put(c, &mut environment);
        let dossier = self.dossier.clone();
        let truth = self.truth(&dossier.retrieve, &mut environment)?;
        self.related[k] = Some(truth);
        Ok(truth)
    }

    // "An operation includes the states before and after; a primed variable that isn't mentioned is free."
    fn find_steps(&mut self, op: usize, which: Which, before: usize, input: usize) -> Found<Vec<Step>> {
        let operation = &self.dossier.operations[op];
        let (side, predicate) = match which {
            Which::Abstract => (&self.abstract_side, &operation.abstract_predicate),
            Which::Concrete => (&self.concrete_side, &operation.concrete_predicate),
        };
        let parameters = &self.operations[op];
        let mut steps = Vec::new();
        if !side.states[before] {
            return Ok(steps);
        }
        for output in 0..parameters.outputs.count() {
            for after in 0..side.group.count() {
                if !side.states[after] {
                    continue;
                }
                let mut environment = Vec::new();
                side.group.put(before, &mut environment);
                parameters.inputs.put(input, &mut environment);
                parameters.outputs.put(output, &mut environment);
                side.group.put_primed(after, &mut environment);
                if self.world.predicate(predicate, &mut environment) {
                    steps.push((output, after));
                }
                if self.world.over() {
                    return Err(LeftOut);
                }
            }
        }
        Ok(steps)
    }

    fn steps(&mut self, op: usize, which: Which, before: usize, input: usize) -> Found<Rc<Vec<Step>>> {
        let k = before * self.operations[op].inputs.count() + input;
        let known = match which {
            Which::Abstract => &self.operations[op].abstract_steps.known[k],
            Which::Concrete => &self.operations[op].concrete_steps.known[k],
        };
        if let Some(steps) = known {
            return Ok(steps.clone());
        }
        let steps = Rc::new(self.find_steps(op, which, before, input)?);
        match which {
            Which::Abstract => self.operations[op].abstract_steps.known[k] = Some(steps.clone()),
            Which::Concrete => self.operations[op].concrete_steps.known[k] = Some(steps.clone()),
        }
        Ok(steps)
    }

    // "Its precondition: some after state and some outputs exist."
    fn precondition(&mut self, op: usize, which: Which, before: usize, input: usize) -> Found<bool> {
        Ok(!self.steps(op, which, before, input)?.is_empty())
    }

    // "Initialisation: each concrete initial state has a related abstract initial state." The first failing binding at a place or behind it.
    fn initialisation(&mut self, from: u64) -> Found<Option<u64>> {
        for c in 0..self.concrete_count() {
            if (c as u64) < from || !self.concrete_side.initial[c] {
                continue;
            }
            let mut met = false;
            for a in 0..self.abstract_count() {
                met = met || self.abstract_side.initial[a] && self.related(a, c)?;
            }
            if !met {
                return Ok(Some(c as u64));
            }
        }
        Ok(None)
    }

    // "Applicability: abstract precondition and retrieve give the concrete precondition."
    fn applicability(&mut self, op: usize, first: u64, from: u64) -> Found<Option<u64>> {
        let inputs = self.operations[op].inputs.count();
        for a in 0..self.abstract_count() {
            for c in 0..self.concrete_count() {
                if !self.related(a, c)? {
                    continue;
                }
                for i in 0..inputs {
                    let place = first + ((a * self.concrete_count() + c) * inputs + i) as u64;
                    if place < from || !self.precondition(op, Which::Abstract, a, i)? {
                        continue;
                    }
                    if !self.precondition(op, Which::Concrete, c, i)? {
                        return Ok(Some(place));
                    }
                }
            }
        }
        Ok(None)
    }

    // "Correctness: abstract precondition, retrieve and the concrete operation give some abstract after state, related to the concrete after state,
    // reached by the abstract operation with the same inputs and outputs."
    fn correctness(&mut self, op: usize, first: u64, from: u64) -> Found<Option<u64>> {
        let (inputs, outputs) = (self.operations[op].inputs.count(), self.operations[op].outputs.count());
        for a in 0..self.abstract_count() {
            for c in 0..self.concrete_count() {
                if !self.related(a, c)? {
                    continue;
                }
                for i in 0..inputs {
                    if !self.precondition(op, Which::Abstract, a, i)? {
                        continue;
                    }
                    let abstract_steps = self.steps(op, Which::Abstract, a, i)?;
                    for &(o, after) in self.steps(op, Which::Concrete, c, i)?.iter() {
                        let of_inputs = ((a * self.concrete_count() + c) * inputs + i) as u64;
                        let place = first + (of_inputs * outputs as u64 + o as u64) * self.concrete_count() as u64 + after as u64;
                        if place >= from && !self.met(&abstract_steps, o, after)? {
                            return Ok(Some(place));
                        }
                    }
                }
            }
        }
        Ok(None)
    }

    // Whether one of the abstract steps has these outputs and comes to a state that is related to a concrete one.
    fn met(&mut self, steps: &[Step], output: usize, concrete_after: usize) -> Found<bool> {
        for (o, abstract_after) in steps {
            if *o == output && self.related(*abstract_after, concrete_after)? {
                return Ok(true);
            }
        }
        Ok(false)
    }

    // How many bindings an obligation has: "Initialisation runs over the concrete variables; applicability over abstract, concrete, inputs;
    // correctness over abstract, concrete, inputs, outputs, concrete primed".
    fn bindings(&self, obligation: Obligation) -> u64 {
        self.groups(obligation).iter().map(|(group, _)| group.count() as u64).product()
    }

    // The groups of an obligation, the last one fastest; true where its variables are primed.
    fn groups(&self, obligation: Obligation) -> Vec<(&Group, bool)> {
        let (a, c) = (&self.abstract_side.group, &self.concrete_side.group);
        match obligation {
            Obligation::Initialisation => vec![(c, false)],
            Obligation::Applicability(op) => vec![(a, false), (c, false), (&self.operations[op].inputs, false)],
            Obligation::Correctness(op) => {
                let parameters = &self.operations[op];
                vec![(a, false), (c, false), (&parameters.inputs, false), (&parameters.outputs, false), (c, true)]
            }
        }
    }

    // "Initialisation is first, then for each operation applicability and correctness."
    fn obligations(&self) -> Vec<Obligation> {
        let of_operation = |op| [Obligation::Applicability(op), Obligation::Correctness(op)];
        [Obligation::Initialisation].into_iter().chain((0..self.operations.len()).flat_map(of_operation)).collect()
    }

    // How many bindings the whole check has.
    pub fn total(&self) -> u64 {
        self.obligations().into_iter().map(|obligation| self.bindings(obligation)).sum()
    }

    // The first failing binding at a place of the search order or behind it.
    pub fn first_failing(&mut self, from: u64) -> Found<Option<u64>> {
        let mut first = 0;
        for obligation in self.obligations() {
            let failing = match obligation {
                Obligation::Initialisation => self.initialisation(from)?,
                Obligation::Applicability(op) => self.applicability(op, first, from)?,
                Obligation::Correctness(op) => self.correctness(op, first, from)?,
            };
            if failing.is_some() {
                return Ok(failing);
            }
            first += self.bindings(obligation);
        }
        Ok(None)
    }

    // The binding at a place of the search order.
    pub fn visited(&self, place: u64) -> Visited {
        let mut rest = place;
        for obligation in self.obligations() {
            let count = self.bindings(obligation);
            if rest < count {
                return Visited { obligation, binding: self.binding(obligation, rest) };
            }
            rest -= count;
        }
        unreachable!("a place of the search order")
    }

    fn binding(&self, obligation: Obligation, place: u64) -> Environment {
        let groups = self.groups(obligation);
        let mut numbers = Vec::new();
        let mut rest = place;
        for (group, _) in groups.iter().rev() {
            numbers.push((rest % group.count() as u64) as usize);
            rest /= group.count() as u64;
        }
        let mut environment = Vec::new();
        for ((group, primed), k) in groups.iter().zip(numbers.into_iter().rev()) {
            if *primed { group.put_primed(k, &mut environment) } else { group.put(k, &mut environment) }
        }
        environment
    }

    pub fn world(&self) -> &World {
        &self.world
    }
}
