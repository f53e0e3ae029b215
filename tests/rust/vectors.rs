// The plain implementation alone on stored cases: dossiers NAME.txt and scripts of calls NAME.script, with NAME.expected.
use crate::calls::{Calls, Reply, Verdict};
use crate::grammar::Grammar;
use crate::report::{first_line, refusal, report};
use crate::search::{Found, LeftOut};
use std::fs;
use std::path::{Path, PathBuf};

// How many nodes are visited before a stored case is left out.
const LIMIT: u64 = 4_000_000_000;

// A script's letter, its number and, for a load, its text.
struct Line<'a> {
    letter: u8,
    number: u64,
    text: &'a [u8],
}

// The line of a script, and what stands behind it.
fn line(script: &[u8]) -> (Line<'_>, &[u8]) {
    let end = script.iter().position(|b| *b == b'\n').unwrap_or(script.len());
    let digits = script[1..end].iter().filter(|b| b.is_ascii_digit());
    let number = digits.fold(0u64, |n, b| n.saturating_mul(10).saturating_add((*b - b'0') as u64));
    let behind = &script[(end + 1).min(script.len())..];
    if script[0] != b'l' {
        return (Line { letter: script[0], number, text: &[] }, behind);
    }
    let (text, behind) = behind.split_at(number as usize);
    (Line { letter: b'l', number, text }, &behind[1.min(behind.len())..])
}

fn answer(calls: &Calls, reply: Reply) -> Vec<u8> {
    match reply {
        Reply::Loaded | Reply::Dropped => b"ok\n".to_vec(),
        Reply::Faulty(fault) => refusal(fault),
        Reply::Refused(number) => format!("refused {number}\n").into_bytes(),
        Reply::Looked(count) => format!("{count}\n").into_bytes(),
        Reply::Written(length) => format!("{length}\n").into_bytes(),
        Reply::Is(Verdict::Unfinished) => b"unfinished\n".to_vec(),
        Reply::Is(Verdict::Accepted) => b"accepted\n".to_vec(),
        Reply::Is(Verdict::Refuted(obligation)) => calls.dossier().map_or(Vec::new(), |dossier| first_line(dossier, obligation)),
    }
}

// The answers to a script.
fn run_script(script: &[u8]) -> Found<Vec<u8>> {
    let mut calls = Calls::new(LIMIT);
    let mut answers = Vec::new();
    let mut rest = script;
    while !rest.is_empty() {
        let (line, behind) = line(rest);
        rest = behind;
        let mut lent = vec![b'_'; if line.letter == b'w' { line.number as usize } else { 0 }];
        let reply = match line.letter {
            b'l' => calls.load(line.text)?,
            b'a' => calls.advance(line.number)?,
            b'v' => calls.verdict(),
            b'w' => calls.witness(&mut lent),
            b'd' => calls.drop(),
            other => panic!("no call: {}", other as char),
        };
        answers.extend(answer(&calls, reply));
        if line.letter == b'w' {
            answers.extend(lent);
            answers.push(b'\n');
        }
    }
    Ok(answers)
}

fn cases(folder: &Path) -> Vec<PathBuf> {
    let entries = fs::read_dir(folder).unwrap_or_else(|error| panic!("{}: {error}", folder.display()));
    let paths = entries.map(|entry| entry.expect("a folder's entry").path());
    let mut cases: Vec<PathBuf> = paths.filter(|path| path.extension().is_some_and(|e| e == "txt" || e == "script")).collect();
    cases.sort();
    cases
}

fn run_case(case: &Path, grammar: &Grammar) -> Found<Vec<u8>> {
    let given = fs::read(case).expect("a case");
    if case.extension().is_some_and(|e| e == "script") {
        return run_script(&given);
    }
    if !grammar.agrees(&given) {
        return Ok(b"the plain reader and the rules of form differ".to_vec());
    }
    report(&given, LIMIT).map(|(written, _)| written)
}

// Whether all cases of the folders agree with what is expected.
pub fn run(folders: &[String]) -> bool {
    let (mut same, mut differ, mut left_out) = (0, 0, 0);
    let grammar = Grammar::new();
    for case in folders.iter().flat_map(|folder| cases(Path::new(folder))) {
        let expected = fs::read(case.with_extension("expected")).expect("what is expected");
        match run_case(&case, &grammar) {
            Err(LeftOut) => left_out += 1,
            Ok(written) if written == expected => same += 1,
            Ok(written) => {
                differ += 1;
                println!("{}\n  expected {:?}\n  written  {:?}", case.display(), String::from_utf8_lossy(&expected), String::from_utf8_lossy(&written));
            }
        }
    }
    println!("vectors: the plain implementation: {same} same, {differ} differ ({left_out} left out)");
    differ == 0 && same > 0
}
