// The form of a dossier as rules, and number 4 by its own words: "The first symbol such that no dossier, by form alone, begins with the symbols up to and
// including it; or the text's end". A check of the reader in form.rs, with no choice of its own: all ways to read the symbols are followed together.
use crate::form;
use crate::scan::{scan, Kind, Symbol};

// A word with $ is a rule's name, NAME a plain name, USED a name with any ending, PARAMETER one with ? or !, NUMBER a number; all others are symbols. The
// rules of one name stand together. Every rule has some text, so that whatever is begun can be completed.
const RULES: [(&str, &str); 86] = [
    ("$dossier", "contents $entries"),
    ("$entries", "given NAME $entries"),
    ("$entries", "abstract concrete ainit cinit retrieve $operation-entries"),
    ("$operation-entries", "op NAME $operation-entries"),
    ("$operation-entries", "end $bodies"),
    ("$bodies", "given NAME $elements end $bodies"),
    ("$bodies", "abstract $variables where $predicate end $concrete"),
    ("$concrete", "concrete $variables where $predicate end $inits"),
    ("$inits", "ainit where $predicate end cinit where $predicate end $retrieve"),
    ("$retrieve", "retrieve where $predicate end"),
    ("$retrieve", "retrieve where $predicate end $operations"),
    ("$operations", "$operation"),
    ("$operations", "$operation $operations"),
    ("$operation", "op NAME $sides"),
    ("$operation", "op NAME $parameters $sides"),
    ("$sides", "abstract $predicate concrete $predicate end"),
    ("$elements", "NAME"),
    ("$elements", "$elements NAME"),
    ("$variables", "NAME : $type ;"),
    ("$variables", "$variables NAME : $type ;"),
    ("$parameters", "PARAMETER : $type ;"),
    ("$parameters", "$parameters PARAMETER : $type ;"),
    ("$type", "USED"),
    ("$type", "$range"),
    ("$type", "P USED"),
    ("$type", "USED <-> USED"),
    ("$type", "USED -+> USED"),
    ("$type", "USED --> USED"),
    ("$range", "$end .. $end"),
    ("$end", "NUMBER"),
    ("$end", "- NUMBER"),
    ("$predicate", "$implication"),
    ("$predicate", "$predicate <=> $implication"),
    ("$implication", "$disjunction"),
    ("$implication", "$disjunction => $implication"),
    ("$disjunction", "$conjunction"),
    ("$disjunction", "$disjunction or $conjunction"),
    ("$conjunction", "$negation"),
    ("$conjunction", "$conjunction and $negation"),
    ("$negation", "$atom"),
    ("$negation", "not $negation"),
    ("$atom", "true"),
    ("$atom", "false"),
    ("$atom", "( $predicate )"),
    ("$atom", "( $quantifier NAME : $over @ $predicate )"),
    ("$atom", "$term = $term"),
    ("$atom", "$term /= $term"),
    ("$atom", "$term < $term"),
    ("$atom", "$term <= $term"),
    ("$atom", "$term $belongs $term"),
    ("$atom", "$term $belongs $range"),
    ("$atom", "$term |-> $term $belongs $term"),
    ("$belongs", "in"),
    ("$belongs", "notin"),
    ("$quantifier", "forall"),
    ("$quantifier", "exists"),
    ("$quantifier", "exists1"),
    ("$over", "USED"),
    ("$over", "$range"),
    ("$term", "$product"),
    ("$term", "$term + $product"),
    ("$term", "$term - $product"),
    ("$term", "$term union $product"),
    ("$term", "$term minus $product"),
    ("$product", "$prefixed"),
    ("$product", "$product * $prefixed"),
    ("$product", "$product inter $prefixed"),
    ("$product", "$product div $end"),
    ("$product", "$product mod $end"),
    ("$prefixed", "$primary"),
    ("$prefixed", "- $prefixed"),
    ("$prefixed", "# $prefixed"),
    ("$prefixed", "dom $prefixed"),
    ("$prefixed", "ran $prefixed"),
    ("$primary", "NUMBER"),
    ("$primary", "USED"),
    ("$primary", "[ $term ]"),
    ("$primary", "{ $items }"),
    ("$primary", "{ $pairs }"),
    ("$primary", "{ NAME : USED | $predicate }"),
    ("$primary", "empty USED"),
    ("$primary", "empty USED USED"),
    ("$items", "$term"),
    ("$items", "$items , $term"),
    ("$pairs", "$term |-> $term"),
    ("$pairs", "$pairs , $term |-> $term"),
];

// A word of a rule; a rule's name as its first place in the list.
#[derive(Clone, Copy, PartialEq)]
enum Word {
    Rule(usize),
    Name,
    Used,
    Parameter,
    Number,
    Fixed(&'static str),
}

fn word(spelling: &'static str) -> Word {
    match spelling {
        "NAME" => Word::Name,
        "USED" => Word::Used,
        "PARAMETER" => Word::Parameter,
        "NUMBER" => Word::Number,
        _ if spelling.starts_with('$') => Word::Rule(first_rule(spelling)),
        _ => Word::Fixed(spelling),
    }
}

fn first_rule(name: &str) -> usize {
    RULES.iter().position(|(known, _)| *known == name).expect("a rule")
}

fn suits(word: Word, kind: Kind) -> bool {
    match (word, kind) {
        (Word::Number, Kind::Number(_)) | (Word::Used, Kind::Name(_)) => true,
        (Word::Name, Kind::Name(name)) => name.is_plain(),
        (Word::Parameter, Kind::Name(name)) => name.ending == b'?' || name.ending == b'!',
        (Word::Fixed(word), Kind::Fixed(spelling)) => word == spelling,
        _ => false,
    }
}

// A rule begun at a symbol, and how many of its words are read.
#[derive(Clone, Copy, PartialEq)]
struct Begun {
    rule: usize,
    words: usize,
    start: usize,
}

pub struct Grammar {
    // each rule's name and words
    rules: Vec<(usize, Vec<Word>)>,
}

impl Grammar {
    pub fn new() -> Grammar {
        Grammar { rules: RULES.iter().map(|(name, words)| (first_rule(name), words.split(' ').map(word).collect())).collect() }
    }

    fn next(&self, begun: Begun) -> Option<Word> {
        self.rules[begun.rule].1.get(begun.words).copied()
    }

    // All that follows from the rules begun at a symbol: those that their next words name, and those that go on behind a rule that is complete.
    fn close(&self, states: &[Vec<Begun>], state: &mut Vec<Begun>) {
        let mut k = 0;
        while k < state.len() {
            let begun = state[k];
            k += 1;
            let follow: Vec<Begun> = match self.next(begun) {
                Some(Word::Rule(name)) => {
                    let named = (name..self.rules.len()).take_while(|rule| self.rules[*rule].0 == name);
                    named.map(|rule| Begun { rule, words: 0, start: states.len() }).collect()
                }
                Some(_) => Vec::new(),
                None => {
                    let name = Word::Rule(self.rules[begun.rule].0);
                    let waiting = states[begun.start].iter().filter(|outer| self.next(**outer) == Some(name));
                    waiting.map(|outer| Begun { words: outer.words + 1, ..*outer }).collect()
                }
            };
            for next in follow {
                if !state.contains(&next) {
                    state.push(next);
                }
            }
        }
    }

    // The place of number 4, if there is one.
    pub fn first_fault(&self, symbols: &[Symbol], end: usize) -> Option<usize> {
        let mut states: Vec<Vec<Begun>> = Vec::new();
        let mut state = vec![Begun { rule: 0, words: 0, start: 0 }];
        self.close(&states, &mut state);
        for symbol in symbols {
            let taken = state.iter().filter(|begun| self.next(**begun).is_some_and(|word| suits(word, symbol.kind)));
            let mut after: Vec<Begun> = taken.map(|begun| Begun { words: begun.words + 1, ..*begun }).collect();
            if after.is_empty() {
                return Some(symbol.place);
            }
            states.push(state);
            self.close(&states, &mut after);
            state = after;
        }
        let whole = state.iter().any(|begun| begun.rule == 0 && self.next(*begun).is_none());
        if whole { None } else { Some(end) }
    }

    // Whether the reader finds number 4 just where the rules do: 5 and 6 stand before it.
    pub fn agrees(&self, text: &[u8]) -> bool {
        let Ok(symbols) = scan(text) else { return true };
        let fault = self.first_fault(&symbols, text.len());
        match form::read(&symbols, text.len()) {
            Ok(_) => fault.is_none(),
            Err(found) if found.number == 4 => fault == Some(found.place),
            Err(found) => fault.is_none_or(|place| place > found.place),
        }
    }
}
