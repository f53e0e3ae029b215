// Differential tests: the proved code against a plain implementation of document 01 that shares nothing with it.
// usage: driver COUNT SEED FOLDER       COUNT texts and COUNT / 5 lists of calls; what differs is saved in FOLDER
//        driver --vectors FOLDER..      the plain implementation alone on stored cases
//        driver --text FILE..           the reports of both on some texts
//        driver                         the plain implementation's report of the text on standard input
mod calls;
mod damage;
mod expressions;
mod form;
mod form_terms;
mod generate;
mod grammar;
mod limits;
mod lists;
mod meaning;
mod proved;
mod random;
mod reading;
mod report;
mod scan;
mod search;
mod tally;
mod tree;
mod types;
mod vectors;

use calls::Reply;
use grammar::Grammar;
use random::Random;
use std::path::{Path, PathBuf};
use std::io::{Read, Write};
use std::{fs, io, process, thread};
use tally::Tally;

// How many nodes the plain implementation visits before a case is left out.
const LIMIT: u64 = 2_000_000;
// The same for a single text on standard input.
const PLAIN_LIMIT: u64 = 400_000_000;
// With so many texts goes one list of calls.
const TEXTS_PER_LIST: u64 = 5;
// Of so many texts one is read by the rules of form too.
const TEXTS_PER_GRAMMAR: u64 = 10;
// A shorter run need not have every kind of ending.
const ALL_KINDS_FROM: u64 = 2_000;
const THREADS: u64 = 2;
// The calls have large arrays of their own.
const STACK_BYTES: usize = 64 << 20;
// Cases that differ are saved up to this many for each thread.
const SAVED: u64 = 10;

struct Run {
    count: u64,
    seed: u64,
    folder: PathBuf,
}

impl Run {
    fn random(&self, kind: u64, k: u64) -> Random {
        let mut start = Random::new(self.seed.wrapping_mul(2).wrapping_add(kind));
        Random::new(start.next().wrapping_add(k.wrapping_mul(0xd134_2543_de82_ef95)))
    }

    fn save(&self, name: &str, bytes: &[u8]) -> PathBuf {
        let path = self.folder.join(name);
        fs::write(&path, bytes).unwrap_or_else(|error| panic!("{}: {error}", path.display()));
        path
    }

    fn text(&self, k: u64, grammar: &Grammar, tally: &mut Tally) {
        let text = damage::text(&mut self.random(0, k));
        tally.texts += 1;
        let mut what = differs(&text, tally);
        if k / THREADS % TEXTS_PER_GRAMMAR == 0 && !grammar.agrees(&text) {
            what = Some("the plain reader and the rules of form".to_string());
        }
        let Some(what) = what else { return };
        tally.differ += 1;
        if tally.differ <= SAVED {
            let path = self.save(&format!("text-{}-{k}.txt", self.seed), &text);
            println!("text {k} of seed {}: {what}\n  saved: {}", self.seed, path.display());
        }
    }

    fn list(&self, k: u64, tally: &mut Tally) {
        tally.lists += 1;
        match lists::compare(&mut self.random(1, k), LIMIT, tally) {
            Err(_) => tally.left_out += 1,
            Ok(None) => {}
            Ok(Some(difference)) => {
                tally.differ += 1;
                if tally.differ <= SAVED {
                    let held = self.save(&format!("list-{}-{k}.held", self.seed), &difference.held);
                    let calls = self.save(&format!("list-{}-{k}.calls", self.seed), spelled_calls(&difference.calls).as_bytes());
                    println!("list {k} of seed {}: last call: {}\n  saved: {} {}", self.seed, difference.what, calls.display(), held.display());
                }
            }
        }
    }

    fn part(&self, thread: u64) -> Tally {
        let mut tally = Tally::default();
        let grammar = Grammar::new();
        for k in (0..self.count).filter(|k| k % THREADS == thread) {
            self.text(k, &grammar, &mut tally);
            if k / THREADS % TEXTS_PER_LIST == 0 {
                self.list(k, &mut tally);
            }
        }
        tally
    }
}

fn spelled_calls(calls: &[lists::Call]) -> String {
    let one = |call: &lists::Call| match call {
        lists::Call::Load(text) => format!("l {}\n{}\n", text.len(), String::from_utf8_lossy(text)),
        lists::Call::Advance(n) => format!("a {n}\n"),
        lists::Call::Verdict => "v\n".to_string(),
        lists::Call::Witness(lent) => format!("w {}\n", lent.len()),
        lists::Call::Drop => "d\n".to_string(),
    };
    calls.iter().map(one).collect()
}

// The reports of both on a text; what differs, if anything. Of a text that is left out the reading is compared.
fn differs(text: &[u8], tally: &mut Tally) -> Option<String> {
    match report::report(text, LIMIT) {
        Err(_) => {
            tally.left_out += 1;
            let reply = proved::Proved::new(&[0; calls::HELD_BYTES]).load(text);
            if reply == Reply::Loaded { None } else { Some(format!("load of a dossier: {reply:?}")) }
        }
        Ok((expected, ending)) => {
            tally.text(ending);
            match proved::report(text) {
                Some(written) if written == expected => None,
                Some(written) => Some(format!("written {:?}, expected {:?}", String::from_utf8_lossy(&written), String::from_utf8_lossy(&expected))),
                None => Some("bytes behind the report".to_string()),
            }
        }
    }
}

fn run_random(count: u64, seed: u64, folder: &Path) -> bool {
    let start = |thread: u64| {
        let run = Run { count, seed, folder: folder.to_path_buf() };
        thread::Builder::new().stack_size(STACK_BYTES).spawn(move || run.part(thread)).expect("a thread")
    };
    let threads: Vec<_> = (0..THREADS).map(start).collect();
    let mut all = Tally::default();
    threads.into_iter().for_each(|thread| all.add(&thread.join().expect("a thread's end")));
    println!("{}", all.line());
    let missing = if count < ALL_KINDS_FROM { Vec::new() } else { all.missing() };
    if !missing.is_empty() {
        println!("differential: never occurred: {}", missing.join(", "));
    }
    println!(
        "differential: {} texts, {} lists of calls ({} calls), {} differ ({} left out), seed {seed}",
        all.texts, all.lists, all.calls, all.differ, all.left_out
    );
    all.differ == 0 && missing.is_empty()
}

fn run_texts(files: &[String]) -> bool {
    let mut same = true;
    for file in files {
        let text = fs::read(file).unwrap_or_else(|error| panic!("{file}: {error}"));
        let what = differs(&text, &mut Tally::default());
        same = same && what.is_none();
        println!("{file}: {}", what.unwrap_or("same".to_string()));
    }
    same
}

// The plain implementation's report of the text on standard input; nothing where the enumeration takes too long.
fn run_plain() -> bool {
    let mut text = Vec::new();
    io::stdin().read_to_end(&mut text).expect("standard input");
    match report::report(&text, PLAIN_LIMIT) {
        Err(_) => false,
        Ok((written, _)) => io::stdout().write_all(&written).is_ok(),
    }
}

fn run(arguments: &[String]) -> bool {
    match arguments {
        [] => run_plain(),
        [mode, folders @ ..] if mode == "--vectors" => vectors::run(folders),
        [mode, files @ ..] if mode == "--text" => run_texts(files),
        [count, seed, folder] => run_random(count.parse().expect("COUNT"), seed.parse().expect("SEED"), Path::new(folder)),
        _ => panic!("usage: driver COUNT SEED FOLDER, or --vectors FOLDER.., or --text FILE.., or a text on standard input"),
    }
}

fn main() {
    let arguments: Vec<String> = std::env::args().skip(1).collect();
    let work = thread::Builder::new().stack_size(STACK_BYTES).spawn(move || run(&arguments)).expect("a thread");
    process::exit(if work.join().unwrap_or(false) { 0 } else { 1 });
}
