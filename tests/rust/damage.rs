// Damage to dossiers, dossiers near each limit, and noise.
use crate::expressions::Shape;
use crate::generate::{counted, dossier, small_plan, spelled, tangled, Plan};
use crate::random::Random;
use crate::scan::{MARKS, RESERVED, SYMBOLS, TEXT_BYTES};

// Operators that can stand for each other by form.
const ALIKE: [&[&str]; 7] = [
    &["+", "-", "*", "union", "minus", "inter"],
    &["=", "/=", "<", "<=", "in", "notin"],
    &["and", "or", "=>", "<=>"],
    &["-", "#", "dom", "ran", "not"],
    &["<->", "-+>", "-->"],
    &["div", "mod", "*"],
    &["forall", "exists", "exists1"],
];
// Terms whose size is close to 2,147,483,647, or was before a mod, a div or a #.
const LARGE: [&str; 18] = [
    "1000 * 1000 * 1000 * 2",
    "1000 * 1000 * 1000 * 3",
    "1000 * 1000 * [ 1000 + 1000 + 147 ] + 483 * 1000 + 647",
    "1000 * 1000 * [ 1000 + 1000 + 147 ] + 483 * 1000 + 648",
    "- 1000 * 1000 * [ 1000 + 1000 + 147 ] - 483 * 1000 - 647",
    "- 1000 * 1000 * 1000 * 2 - 1000 * 1000 * 148",
    "1000 * 1000 * 1000 * 1000 mod 7",
    "[ 1000 * 1000 * 1000 * 2 ] mod 7 * 1000",
    "[ 1000 * 1000 * 1000 * 2 ] div 7 * 2",
    "[ - 1000 * 1000 * 1000 * 2 ] div 7 + [ 1000 * 1000 * 147 ] div - 3",
    "# { x : G | 1000 * 1000 * 1000 * 3 = 0 } + 1000 * 1000 * 1000 * 3",
    "# { x : G | true } * 1000 * 1000 * 134",
    "# { x : G | true } * 1000 * 1000 * 135",
    "1000 * 1000 * 135 * # { x : G | 1000 * 1000 * 1000 * 3 = 0 }",
    "1000 * 1000 * 1000 * [ 3 - 1000 * 1000 * 1000 * 3 ]",
    "v1 - 1000 * w1",
    "v1 * 1000 * 1000 * 2 + 1000 * 1000 * 147",
    "v1 * 1000 * 1000 * 2 + 1000 * 1000 * 148",
];
// Predicates whose braces, ranges or divisors are close to a limit or over it, also with a second fault around them.
const BRACES: [&str; 12] = [
    "empty G H = empty G H",
    "{ g1 |-> h1 } = empty G H",
    "{ g1 |-> g1 } = { g1 |-> g1 }",
    "{ h1 |-> h1 } = empty H H",
    "1 in 0 .. 64",
    "1 in 2 .. 1",
    "1 in - 3 .. 60",
    "g1 in 2 .. 1",
    "g1 div 0 = 0",
    "1 mod - 0 = g1",
    "{ g1 |-> g1 , g1 |-> nobody } = empty G G",
    "true",
];
const NUMBERS: [&str; 10] = ["0", "1", "2", "7", "15", "63", "64", "65", "1000", "1001"];

fn any_symbol(random: &mut Random) -> String {
    match random.below(8) {
        0 | 1 | 2 => random.pick(&MARKS).to_string(),
        3 | 4 => random.pick(&RESERVED).to_string(),
        5 => random.pick(&NUMBERS).to_string(),
        6 => random.pick(&["x", "k", "m'", "y?", "z!", "SEG", "abcdefghijklmnopq", "01", "1a", "and'", "aVeryLongName16b"]).to_string(),
        _ => random.pick(&["(", ")", "{", "}", "[", "]", "end", "where", ":", ";", "..", "|->"]).to_string(),
    }
}

fn is_name(symbol: &str) -> bool {
    symbol.as_bytes()[0].is_ascii_alphabetic() && !RESERVED.contains(&symbol)
}

fn is_number(symbol: &str) -> bool {
    symbol.as_bytes()[0].is_ascii_digit()
}

// A random place among the symbols that suit.
fn place_of(random: &mut Random, symbols: &[String], suits: impl Fn(&str) -> bool) -> Option<usize> {
    let places: Vec<usize> = (0..symbols.len()).filter(|k| suits(&symbols[*k])).collect();
    if places.is_empty() { None } else { Some(*random.pick(&places)) }
}

// One symbol for another that can stand there by form.
fn exchange_alike(random: &mut Random, symbols: &mut [String]) {
    let class = *random.pick(&ALIKE);
    if let Some(k) = place_of(random, symbols, |symbol| class.contains(&symbol)) {
        symbols[k] = random.pick(class).to_string();
    }
}

fn exchange_names(random: &mut Random, symbols: &mut [String]) {
    let (Some(a), Some(b)) = (place_of(random, symbols, is_name), place_of(random, symbols, is_name)) else { return };
    match random.below(4) {
        0 => symbols.swap(a, b),
        1 => symbols[a] = symbols[b].clone(),
        2 => symbols[a] = format!("{}{}", symbols[a].trim_end_matches(['\'', '?', '!']), random.pick(&["'", "?", "!", ""])),
        _ => symbols[a].insert(0, *random.pick(&['a', 'Z', 'q'])),
    }
}

// A bound name for another bound one, for an operation's, or for any other.
fn exchange_bound(random: &mut Random, symbols: &mut [String]) {
    let binders = ["forall", "exists", "exists1", "{"];
    let bound: Vec<usize> = (1..symbols.len() - 1).filter(|k| binders.contains(&symbols[k - 1].as_str()) && symbols[k + 1] == ":").collect();
    let operations: Vec<usize> = (1..symbols.len()).filter(|k| symbols[k - 1] == "op").collect();
    let named: Vec<usize> = (0..symbols.len()).filter(|k| is_name(&symbols[*k])).collect();
    let from = *random.pick(&[&bound, &operations, &named]);
    if !bound.is_empty() && !from.is_empty() {
        symbols[*random.pick(&bound)] = symbols[*random.pick(from)].clone();
    }
}

fn exchange_numbers(random: &mut Random, symbols: &mut [String]) {
    let divisors: Vec<usize> = (1..symbols.len()).filter(|k| is_number(&symbols[*k]) && ["div", "mod"].contains(&symbols[k - 1].as_str())).collect();
    if !divisors.is_empty() && random.percent(40) {
        symbols[*random.pick(&divisors)] = "0".to_string();
    } else if let Some(k) = place_of(random, symbols, is_number) {
        symbols[k] = random.pick(&NUMBERS).to_string();
    }
}

// One change of the symbols.
pub fn damage(random: &mut Random, symbols: &mut Vec<String>) {
    if symbols.is_empty() {
        return;
    }
    let (k, other) = (random.below(symbols.len()), random.below(symbols.len()));
    let behind = (k + 1).min(symbols.len() - 1);
    match random.below(18) {
        0 => symbols[k] = any_symbol(random),
        1 => symbols.insert(k, any_symbol(random)),
        2 => drop(symbols.remove(k)),
        3 => symbols.insert(k, symbols[k].clone()),
        4 => symbols.swap(k, behind),
        5 => symbols.swap(k, other),
        6 => symbols.truncate(k),
        7..=10 => exchange_names(random, symbols),
        11 | 12 => exchange_numbers(random, symbols),
        13 | 14 => exchange_bound(random, symbols),
        _ => exchange_alike(random, symbols),
    }
}

// One change of the bytes.
pub fn damage_bytes(random: &mut Random, text: &mut Vec<u8>) {
    if text.is_empty() {
        return;
    }
    let k = random.below(text.len());
    let byte = *random.pick(b"'?!.></|-=~\t\r\x00\xff_aP0 \n&:;,(){}[]");
    match random.below(4) {
        0 => text[k] = byte,
        1 => text.insert(k, byte),
        2 => drop(text.remove(k)),
        _ => text.truncate(k),
    }
}

// A dossier around a predicate of retrieve.
fn around(predicate: &str) -> Vec<String> {
    let text = format!(
        "contents given G abstract concrete ainit cinit retrieve end given G g1 g2 end abstract m : P G ; a : 0 .. 2 ; where true end \
         concrete k : 0 .. 2 ; where true end ainit where true end cinit where true end retrieve where {predicate} end"
    );
    text.split(' ').map(str::to_string).collect()
}

// Close to 4,096 symbols, and often to 32,768 bytes.
fn long(random: &mut Random) -> Vec<u8> {
    let plan = small_plan(random);
    let mut symbols = if random.percent(50) { dossier(random, plan) } else { around("k = a") };
    let target = if random.percent(80) { SYMBOLS + random.below(5) - 2 } else { SYMBOLS / 2 };
    let headings: Vec<usize> = (0..symbols.len()).filter(|k| symbols[*k] == "retrieve").collect();
    let predicate = headings[1] + 2;
    let mut added = String::new();
    let mut missing = target - symbols.len();
    while missing > 3 {
        let piece = if missing % 2 == 1 { "not false and " } else { *random.pick(&["true and ", "0 = 0 and ", "2 <= 3 and "]) };
        added += piece;
        missing = missing.saturating_sub(piece.split_whitespace().count());
    }
    symbols.splice(predicate..predicate, added.split_whitespace().map(str::to_string));
    let mut text = spelled(random, &symbols);
    if random.percent(40) {
        let length = TEXT_BYTES + random.below(5) - 2;
        let at = if random.percent(50) { text.len() } else { 0 };
        let blanks = length.saturating_sub(text.len());
        text.splice(at..at, std::iter::repeat_n(b' ', blanks));
    }
    text
}

// Close to depth 24 or to four bound names, by all that is counted.
fn deep(random: &mut Random) -> Vec<String> {
    let target = *random.pick(&[3, 10, 22, 23, 24, 24, 25, 26]);
    let mut closing: Vec<&str> = Vec::new();
    let mut predicate: Vec<String> = Vec::new();
    let mut bound = 0;
    for _ in 0..target {
        let opener = random.below(if bound < 4 { 7 } else { 5 });
        let (open, close) = match opener {
            0 | 1 => ("(".to_string(), ")"),
            2 | 3 => ("not".to_string(), ""),
            4 => ("a = k =>".to_string(), ""),
            5 if random.percent(30) => {
                bound += 1;
                (format!("( {} b{bound} : {} @", random.pick(&["forall", "exists", "exists1"]), random.pick(&["G", "0 .. 1", "- 1 .. 0"])), ")")
            }
            6 if random.percent(30) => {
                bound += 1;
                (format!("{} {{ b{bound} : G |", random.pick(&["m =", "g1 in", "# m /= #"])), "}")
            }
            _ => ("(".to_string(), ")"),
        };
        predicate.extend(open.split(' ').map(str::to_string));
        closing.push(close);
    }
    let atom = *random.pick(&["a = k", "a in - 1 .. 2", "- a = - k", "[ a ] = k", "# m = a", "k div - 2 = 0", "{ g1 } = m", "g1 in - 1 .. 2", "g1 |-> g2 in - 1 .. 2", "a in - 1", "- - a in - - 1 .. 2"]);
    predicate.extend(atom.split(' ').map(str::to_string));
    predicate.extend(closing.iter().rev().filter(|close| !close.is_empty()).map(|close| close.to_string()));
    around(&predicate.join(" "))
}

// A list of so many names.
fn names(letter: &str, count: usize) -> Vec<String> {
    (1..=count).map(|k| format!("{letter}{k}")).collect()
}

// Close to the limits on counts: given sets, elements, variables, inputs, outputs, operations.
fn many(random: &mut Random) -> Vec<String> {
    let near = |random: &mut Random, limit: usize| if random.percent(85) { 1 + random.below(2) } else { limit - 1 + random.below(3) };
    let givens = names("G", near(random, 8));
    let (variables, concrete) = (names("v", near(random, 8)), names("w", near(random, 8)));
    let operations = names("o", near(random, 16));
    let mut text = "contents".to_string();
    givens.iter().for_each(|g| text += &format!(" given {g}"));
    text += " abstract concrete ainit cinit retrieve";
    operations.iter().for_each(|o| text += &format!(" op {o}"));
    text += " end";
    for g in &givens {
        text += &format!(" given {g} {} end", names(&format!("{}e", g.to_lowercase()), near(random, 8)).join(" "));
    }
    let declare = |list: &[String], ending: &str| list.iter().map(|v| format!(" {v}{ending} : 0 .. 1 ;")).collect::<String>();
    text += &format!(" abstract{} where true end concrete{} where true end", declare(&variables, ""), declare(&concrete, ""));
    text += " ainit where true end cinit where true end retrieve where v1 = w1 end";
    for o in &operations {
        let (inputs, outputs) = (names("i", near(random, 3)), names("u", near(random, 3)));
        text += &format!(" op {o}{}{} abstract v1' = 0 concrete w1' = 0 end", declare(&inputs, "?"), declare(&outputs, "!"));
    }
    text.split(' ').map(str::to_string).collect()
}

// Close to the limits on ranges, pairs, bindings and sizes.
fn wide(random: &mut Random) -> Vec<String> {
    let (g, h) = (1 + random.below(8), 1 + random.below(6));
    let right = [Shape::Range(0, 63), Shape::Range(-32, 31), Shape::Range(-1000, -937), Shape::Set(0), Shape::Element(0), Shape::Range(0, 1)];
    let doubtful = [Shape::Range(0, 64), Shape::Range(3, 2), Shape::Pairs("<->", 0, 1), Shape::Pairs("-+>", 0, 1), Shape::Pairs("-->", 0, 1)];
    let spell = |shape: &Shape| match shape {
        Shape::Range(low, high) => format!("{} .. {}", low.to_string().replace('-', "- "), high.to_string().replace('-', "- ")),
        Shape::Set(_) => "P G".to_string(),
        Shape::Pairs(arrow, ..) => format!("G {arrow} H"),
        Shape::Element(_) => "G".to_string(),
    };
    let one = |random: &mut Random| spell(if random.percent(80) { random.pick(&right) } else { random.pick(&doubtful) });
    let list = |random: &mut Random, letter: &str, ending: &str, most: usize| {
        (1..=1 + random.below(most)).map(|k| format!("{letter}{k}{ending} : {} ;", one(random))).collect::<Vec<_>>().join(" ")
    };
    let (divisor, rest) = (random.between(1, 1000), random.between(0, 20));
    let sign = if random.percent(50) { "" } else { "- " };
    let size = format!("[ {} ] mod {sign}{divisor} {} {sign}{rest}", random.pick(&LARGE), random.pick(&["=", "/=", "<", "<="]));
    let brace = *random.pick(&BRACES);
    let ainit = *random.pick(&["true", "false"]);
    let text = format!(
        "contents given G given H abstract concrete ainit cinit retrieve op o end given G {} end given H {} end abstract {} where true end concrete {} where {brace} end \
         ainit where {ainit} end cinit where {brace} end retrieve where {size} end op o {} {} abstract false concrete false end",
        names("g", g).join(" "), names("h", h).join(" "), list(random, "v", "", 2), list(random, "w", "", 2), list(random, "i", "?", 1), list(random, "u", "!", 1)
    );
    text.split(' ').map(str::to_string).collect()
}

fn noise(random: &mut Random) -> Vec<u8> {
    let length = random.below(120);
    match random.below(3) {
        0 => (0..length).map(|_| random.next() as u8).collect(),
        1 => (0..length).map(|_| *random.pick(b"contents given and 0123456789'?!.<>=-+*#|@{}[]()\n")).collect(),
        _ => {
            let symbols: Vec<String> = (0..length).map(|_| any_symbol(random)).collect();
            spelled(random, &symbols)
        }
    }
}

// Some symbols of a dossier, then others.
fn half(random: &mut Random) -> Vec<String> {
    let plan = small_plan(random);
    let mut symbols = dossier(random, plan);
    symbols.truncate(random.below(symbols.len()) + 1);
    for _ in 0..random.below(4) {
        symbols.push(any_symbol(random));
    }
    symbols
}

// A random text: valid, damaged, near a limit, or noise.
pub fn text(random: &mut Random) -> Vec<u8> {
    let kind = random.below(100);
    if kind < 2 {
        return noise(random);
    }
    if kind < 3 {
        return long(random);
    }
    let plan = small_plan(random);
    let wild = *random.pick(&[1, 2, 3, 4, 6, 15, 35]);
    let mut symbols = match kind {
        3..=8 => deep(random),
        9..=12 => many(random),
        13..=18 => wide(random),
        19..=24 => half(random),
        25..=33 => dossier(random, Plan { wild, ..plan }),
        34..=39 | 77..=79 => tangled(random),
        40 => dossier(random, Plan { bindings: 200, ..plan }),
        41..=50 | 70..=76 => counted(random),
        51 => {
            let operations = 4 + random.below(13);
            dossier(random, Plan { operations, bindings: 4, depth: 4, ..plan })
        }
        52..=54 => dossier(random, Plan { bindings: 64, ..plan }),
        _ => dossier(random, plan),
    };
    let changes = if kind < 70 { *random.pick(&[0, 1, 1, 1, 2, 3]) } else { 0 };
    for _ in 0..changes {
        damage(random, &mut symbols);
    }
    let mut text = spelled(random, &symbols);
    if random.percent(4) {
        damage_bytes(random, &mut text);
    }
    text
}

// A small valid dossier, for lists of calls.
pub fn valid(random: &mut Random) -> Vec<u8> {
    let plan = small_plan(random);
    let small = Plan { bindings: plan.bindings.min(8), operations: plan.operations.min(2), ..plan };
    let symbols = if random.percent(40) { counted(random) } else { dossier(random, small) };
    spelled(random, &symbols)
}
