//! A plain Rust program that reads facts and MIR texts and answers as `nllc` does,
//! written by hand without any proof: the partner of `nllc` in measurements and in differential
//! tests. Reading order: `main`, `text` (lines, tokens, which fault is told), `tables`, `facts`,
//! `problem`, `solve`, `runs`, `report`; for MIR texts `shapes`, `body`, `mir`, `rules`; for owners `cut`,
//! `ground`, `link`, `owner`, `owners`, `threads`; for their events `schedule`, `rounds`, `world`, `driving`.
//!
//! `baseline read FILE` and `baseline problem FILE` print one line of counts, of what is read and
//! of the problem that it means; `baseline bases FILE` prints those of a body with its base
//! elements (of a facts text it is `problem`); `baseline values FILE` and `baseline check FILE` print what
//! `nllc` prints; with `--runs` before the command, by the algorithm that `nllc` has. `baseline owners
//! COUNT FILE` solves by so many owners that one thread drives, and prints what that took. Behind `baseline
//! threads` stand the words of `nllc`, and owners work in threads of their own; `counts` in place of `values`
//! prints how much grew and was received. `baseline replay` with the words of `nllc replay` prints what that prints,
//! and `baseline schedule COUNT FILE` a schedule of so many events. Status: 0 answered, 1 `check` found faults or owners
//! other values, 2 words, file or text refused, 3 output failed.

mod body;
mod cut;
mod driving;
mod facts;
mod ground;
mod known;
mod link;
mod mir;
mod owner;
mod owners;
mod problem;
mod report;
mod rounds;
mod rules;
mod runs;
mod schedule;
mod shapes;
mod solve;
mod tables;
mod text;
mod threads;
mod words;
mod world;

use cut::Cut;
use facts::Facts;
use ground::Ground;
use mir::Reader;
use problem::Problem;
use std::fs::File;
use std::io::{self, BufWriter, Read, Write};
use std::process::exit;
use text::Fault;
use words::{Deal, Solver, USAGE};
use world::{Step, World};

/// The greatest length of a text in bytes.
const TEXT_LIMIT: u64 = 67_108_864;

/// The bytes of a file, at most one more than a text may have.
fn bytes_of(path: &str) -> io::Result<Vec<u8>> {
    let file = File::open(path)?;
    let length = file.metadata()?.len().min(TEXT_LIMIT + 1) as usize;
    // One byte for the line feed that the reader adds, one that lets the last read find the end.
    let mut bytes = Vec::with_capacity(length + 2);
    file.take(TEXT_LIMIT + 1).read_to_end(&mut bytes)?;
    Ok(bytes)
}

/// The problem of a text; only its counts are printed where `command` is `read`.
fn problem<'t>(command: &str, text: &'t [u8]) -> Result<Problem<'t>, Fault> {
    if !text::is_of::<Reader>(text) {
        let mut facts = Facts::new();
        text::read(text, &mut facts)?;
        return Ok(facts.finish());
    }
    let mut reader = Reader::new();
    text::read(text, &mut reader)?;
    let body = reader.finish();
    if command == "read" {
        let status = report::body_counts(&body, &mut io::stdout().lock()).map(|()| 0);
        exit(status.unwrap_or_else(|_| cannot_write()))
    }
    if command == "bases" {
        let (count, mut out) = (rules::base_count(&body), io::stdout().lock());
        let status = report::base_counts(&body, count, &mut out).map(|()| 0);
        exit(status.unwrap_or_else(|_| cannot_write()))
    }
    Ok(rules::problem(body).unwrap_or_else(|| refuse("nllc: limit constraints")))
}

/// Writes the values, or the faults, and gives the status.
fn report<V: report::Value>(
    command: &str,
    problem: &Problem,
    values: &[V],
    out: &mut impl Write,
) -> io::Result<i32> {
    if command == "values" {
        return report::values(problem, values, out).map(|()| 0);
    }
    let faults = report::faults(problem, values);
    report::fault_lines(problem, &faults, out)?;
    Ok(if faults.is_empty() { 0 } else { 1 })
}

/// The cut by which regions are dealt.
fn cut_of(deal: Deal, owners: u16, regions: u32) -> Cut {
    let path = match deal {
        Deal::Round => return Cut::round(regions, owners),
        Deal::Blocks => return Cut::blocks(regions, owners),
        Deal::Listed(path) => path,
    };
    let text = text_of(path, "cut line");
    let list = cut::read(&text).unwrap_or_else(|fault| refuse_fault("cut line", &fault));
    Cut::from_list(regions, owners, list).unwrap_or_else(|why| refuse(&format!("nllc: {why}")))
}

/// Writes the answer that owners in threads find, and gives the status.
fn threads_answer(
    command: &str,
    problem: &Problem,
    cut: Cut,
    out: &mut impl Write,
) -> io::Result<i32> {
    let ground = Ground::of(problem, cut);
    let owners = threads::solve(&ground);
    if command == "counts" {
        return threads::counts(&owners, out).map(|()| 0);
    }
    report(command, problem, &threads::values(&ground, &owners), out)
}

/// Writes what the events of a schedule answer, the balance and the values at the end.
fn replay(problem: &Problem, cut: Cut, path: &str, out: &mut impl Write) -> io::Result<i32> {
    let ground = Ground::of(problem, cut);
    let text = text_of(path, "schedule line");
    let events = schedule::read(&text, ground.cut.owners)
        .unwrap_or_else(|fault| refuse_fault("schedule line", &fault));
    drop(text);
    let mut world = World::of(&ground);
    let answers: Vec<Step> = events.iter().map(|&event| world.step(event)).collect();
    report::answers(&answers, out)?;
    writeln!(out, "balance {}", world.balance)?;
    report("values", problem, &world.values(&ground), out)
}

/// Writes a schedule of so many events.
fn make_schedule(problem: &Problem, cut: Cut, count: usize, out: &mut impl Write) -> io::Result<i32> {
    let mut out = BufWriter::new(out);
    driving::write(&Ground::of(problem, cut), count, &mut out)?;
    out.flush().map(|()| 0)
}

/// Writes the answer of a command and gives the status.
fn answer(command: &str, solver: Solver, problem: &Problem) -> io::Result<i32> {
    let mut out = io::stdout().lock();
    let status = match (command, solver) {
        ("read" | "bases" | "problem", _) => report::counts(problem, &mut out).map(|()| 0),
        (_, Solver::Old) => report(command, problem, &solve::solve(problem), &mut out),
        (_, Solver::Runs) => report(command, problem, &runs::solve(problem), &mut out),
        (_, Solver::Turns(owners)) => owners::report(problem, owners, &mut out),
        (_, Solver::Threads(owners, deal)) => {
            let cut = cut_of(deal, owners, problem.regions());
            threads_answer(command, problem, cut, &mut out)
        }
        (_, Solver::Replay(owners, deal, path)) => {
            let cut = cut_of(deal, owners, problem.regions());
            replay(problem, cut, path, &mut out)
        }
        (_, Solver::Schedule(owners, deal, count)) => {
            let cut = cut_of(deal, owners, problem.regions());
            make_schedule(problem, cut, count, &mut out)
        }
    }?;
    out.flush().map(|()| status)
}

/// Prints a line of refusal and ends with status 2.
fn refuse(line: &str) -> ! {
    let _ = writeln!(io::stderr(), "{line}");
    exit(2)
}

/// Refuses a text for its fault.
fn refuse_fault(place: &str, fault: &Fault) -> ! {
    refuse(&format!("nllc: {place} {}: {}", fault.line, fault.kind))
}

/// Tells that output failed, and gives the status.
fn cannot_write() -> i32 {
    let _ = writeln!(io::stderr(), "nllc: cannot write");
    3
}

/// The text of a file, which ends with a line feed.
fn text_of(path: &str, place: &str) -> Vec<u8> {
    let Ok(mut text) = bytes_of(path) else {
        refuse(&format!("nllc: cannot read {path}"));
    };
    if text.len() as u64 > TEXT_LIMIT {
        refuse(&format!("nllc: {place} 1: limit text"));
    }
    if text.last() != Some(&b'\n') {
        text.push(b'\n');
    }
    text
}

fn main() {
    let words: Vec<String> = std::env::args().skip(1).collect();
    let asked = words::asked(&words).unwrap_or_else(|| refuse(USAGE));
    let text = text_of(asked.path, "line");
    let problem = problem(asked.command, &text).unwrap_or_else(|fault| refuse_fault("line", &fault));
    exit(answer(asked.command, asked.solver, &problem).unwrap_or_else(|_| cannot_write()))
}
