// Numbers 1, 2 and 3 of document 01: the symbols of a text.

pub const TEXT_BYTES: usize = 32_768;
pub const SYMBOLS: usize = 4_096;
pub const NAME_LETTERS: usize = 16;
pub const LARGEST_LITERAL: i64 = 1_000;

// "Each returns its number, 1 to 14 also the place."
#[derive(Clone, Copy, PartialEq, Eq, PartialOrd, Ord, Debug)]
pub struct Fault {
    pub place: usize,
    pub number: u8,
}

pub fn fault<T>(number: u8, place: usize) -> Result<T, Fault> {
    Err(Fault { place, number })
}

// The letters of a name, and the ' ? or ! that it takes along, or 0 for a plain one.
#[derive(Clone, Copy, PartialEq, Eq, Debug)]
pub struct Name {
    letters: u128,
    pub ending: u8,
}

impl Name {
    pub fn new(letters: &[u8], ending: u8) -> Name {
        let mut packed = [0u8; NAME_LETTERS];
        packed[..letters.len()].copy_from_slice(letters);
        Name { letters: u128::from_be_bytes(packed), ending }
    }

    pub fn is_plain(&self) -> bool {
        self.ending == 0
    }

    pub fn primed(&self) -> Name {
        Name { letters: self.letters, ending: b'\'' }
    }

    // The name as it is written.
    pub fn spelled(&self) -> Vec<u8> {
        let mut bytes: Vec<u8> = self.letters.to_be_bytes().iter().copied().filter(|b| *b != 0).collect();
        if self.ending != 0 {
            bytes.push(self.ending);
        }
        bytes
    }
}

// A name, a number, or a symbol of fixed spelling: a reserved word or a mark.
#[derive(Clone, Copy, PartialEq, Debug)]
pub enum Kind {
    Name(Name),
    Number(i64),
    Fixed(&'static str),
}

#[derive(Clone, Copy, Debug)]
pub struct Symbol {
    pub kind: Kind,
    pub place: usize,
}

// "Reserved ..: the words in BASE other than its names, and .."
pub const RESERVED: [&str; 29] = [
    "contents", "given", "abstract", "concrete", "ainit", "cinit", "retrieve", "op", "end", "P", "where", "true", "empty",
    "and", "or", "not", "false", "forall", "exists", "exists1", "in", "notin", "union", "minus", "inter", "div", "mod", "dom", "ran",
];

// "Marks: .., the longest match taken": the longer ones stand first.
pub const MARKS: [&str; 26] = [
    "<=>", "|->", "<->", "-+>", "-->", "..", "/=", "<=", "=>",
    ":", ";", ",", "|", "@", "(", ")", "[", "]", "{", "}", "=", "<", "+", "-", "*", "#",
];

fn is_ending(byte: u8) -> bool {
    byte == b'\'' || byte == b'?' || byte == b'!'
}

// "a number's is 0 to 1,000 without a leading zero"
fn number(run: &[u8]) -> Option<Kind> {
    let leading_zero = run.len() > 1 && run[0] == b'0';
    if leading_zero || !run.iter().all(|b| b.is_ascii_digit()) || run.len() > 4 {
        return None;
    }
    let value = run.iter().fold(0, |n, b| n * 10 + (*b - b'0') as i64);
    if value > LARGEST_LITERAL { None } else { Some(Kind::Number(value)) }
}

// "A run of letters and digits is one symbol."
fn run_at(text: &[u8], at: usize) -> Option<(Kind, usize)> {
    let mut end = at;
    while end < text.len() && text[end].is_ascii_alphanumeric() {
        end += 1;
    }
    let run = &text[at..end];
    if run[0].is_ascii_digit() {
        return number(run).map(|kind| (kind, end));
    }
    let ending = if end < text.len() && is_ending(text[end]) { text[end] } else { 0 };
    if let Some(word) = RESERVED.iter().find(|word| word.as_bytes() == run) {
        // "Reserved, and with a ' ? or ! not listed at all"
        return if ending == 0 { Some((Kind::Fixed(word), end)) } else { None };
    }
    if run.len() > NAME_LETTERS {
        return None;
    }
    let taken = if ending == 0 { 0 } else { 1 };
    Some((Kind::Name(Name::new(run, ending)), end + taken))
}

// The symbol that begins at a byte, and the place behind it; none where it is not listed.
fn symbol_at(text: &[u8], at: usize) -> Option<(Kind, usize)> {
    if text[at].is_ascii_alphanumeric() {
        return run_at(text, at);
    }
    MARKS.iter().find(|mark| text[at..].starts_with(mark.as_bytes())).map(|mark| (Kind::Fixed(mark), at + mark.len()))
}

// The symbols of a text, or number 1, 2 or 3.
pub fn scan(text: &[u8]) -> Result<Vec<Symbol>, Fault> {
    if text.len() > TEXT_BYTES {
        return fault(1, TEXT_BYTES);
    }
    let mut symbols = Vec::new();
    let mut at = 0;
    while at < text.len() {
        // "Space and newline separate."
        if text[at] == b' ' || text[at] == b'\n' {
            at += 1;
            continue;
        }
        let Some((kind, end)) = symbol_at(text, at) else { return fault(2, at) };
        if symbols.len() == SYMBOLS {
            return fault(3, at);
        }
        symbols.push(Symbol { kind, place: at });
        at = end;
    }
    Ok(symbols)
}
