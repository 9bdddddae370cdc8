//! What the program prints: counts, value lines and faults.

use crate::body::Body;
use crate::problem::{count, Labels, Problem, Universals};
use crate::runs::Runs;
use crate::solve::Row;
use crate::world::Step;
use std::io::{self, Write};

/// One line of counts; bases and constraints are counted as distinct facts of the text.
pub fn counts(problem: &Problem, out: &mut impl Write) -> io::Result<()> {
    writeln!(
        out,
        "points {} edges {} regions {} universals {} bases {} constraints {}",
        problem.points,
        problem.successors.items.len(),
        problem.regions(),
        problem.universals,
        problem.bases.iter().map(|runs| count(runs)).sum::<usize>(),
        problem.constraints.len(),
    )
}

/// One line of counts of a body.
pub fn body_counts(body: &Body, out: &mut impl Write) -> io::Result<()> {
    writeln!(
        out,
        "points {} edges {} regions {} universals {} structs {} variables {}",
        body.lines.len(),
        body.edges,
        body.names.list.len(),
        body.universals,
        body.shapes.structs.len(),
        body.variables.len(),
    )
}

/// Writes how much a body has, and how many base elements.
pub fn base_counts(body: &Body, bases: usize, out: &mut impl Write) -> io::Result<()> {
    writeln!(
        out,
        "points {} regions {} variables {} bases {bases}",
        body.lines.len(),
        body.names.list.len(),
        body.variables.len(),
    )
}

/// The value of a region, in whichever form.
pub trait Value {
    fn has(&self, e: u32) -> bool;
    fn elements(&self) -> impl Iterator<Item = u32> + '_;
}

impl Value for Row {
    fn has(&self, e: u32) -> bool {
        Row::has(self, e)
    }

    fn elements(&self) -> impl Iterator<Item = u32> + '_ {
        self.iter()
    }
}

impl<V: Value> Value for &V {
    fn has(&self, e: u32) -> bool {
        (**self).has(e)
    }

    fn elements(&self) -> impl Iterator<Item = u32> + '_ {
        (**self).elements()
    }
}

impl Value for Runs {
    fn has(&self, e: u32) -> bool {
        Runs::has(self, e)
    }

    fn elements(&self) -> impl Iterator<Item = u32> + '_ {
        self.iter()
    }
}

/// So many bytes are gathered before they are written.
const CHUNK: usize = 1 << 16;

/// Appends a number as it is printed.
fn push_number(line: &mut Vec<u8>, mut number: u32) {
    let mut digits = [0; 10];
    let mut at = digits.len();
    loop {
        at -= 1;
        digits[at] = b'0' + (number % 10) as u8;
        number /= 10;
        if number == 0 {
            break;
        }
    }
    line.extend_from_slice(&digits[at..]);
}

/// Appends the name of a point; ascending points begin with the block of the one before.
fn push_point(line: &mut Vec<u8>, labels: &Labels, p: u32, block: &mut usize) {
    let Labels::Blocks(firsts) = labels else {
        return push_number(line, p);
    };
    if firsts.get(*block + 1).is_some_and(|&next| next <= p) {
        *block += 1;
        if firsts.get(*block + 1).is_some_and(|&next| next <= p) {
            *block += firsts[*block + 1..].partition_point(|&first| first <= p);
        }
    }
    line.extend_from_slice(b"bb");
    push_number(line, *block as u32);
    line.push(b'/');
    push_number(line, p - firsts[*block]);
}

/// A line a region: its name, a colon, then points and ends in order, each after a space.
pub fn values<V: Value>(
    problem: &Problem,
    values: &[V],
    out: &mut impl Write,
) -> io::Result<()> {
    let mut text = Vec::with_capacity(CHUNK + 512);
    for (name, value) in problem.names.iter().zip(values) {
        text.push(b'\'');
        text.extend_from_slice(name);
        text.push(b':');
        let mut block = 0;
        for e in value.elements() {
            text.push(b' ');
            if e < problem.points {
                push_point(&mut text, &problem.labels, e, &mut block);
            } else {
                text.extend_from_slice(b"end('");
                text.extend_from_slice(problem.names[(e - problem.points) as usize]);
                text.push(b')');
            }
            if text.len() >= CHUNK {
                out.write_all(&text)?;
                text.clear();
            }
        }
        text.push(b'\n');
    }
    out.write_all(&text)
}

/// A line an event: its number from 1 and its answer.
pub fn answers(answers: &[Step], out: &mut impl Write) -> io::Result<()> {
    let mut text = Vec::with_capacity(CHUNK + 32);
    for (number, answer) in (1..).zip(answers) {
        push_number(&mut text, number);
        text.extend_from_slice(match answer {
            Step::Done => b" done\n",
            Step::Quiet => b" quiet\n",
            Step::Open => b" open\n",
            Step::NotNow => b" not now\n",
        });
        if text.len() >= CHUNK {
            out.write_all(&text)?;
            text.clear();
        }
    }
    out.write_all(&text)
}

/// For each universal those that it is known to outlive.
fn known(problem: &Problem) -> Vec<Universals> {
    let mut known = problem.outlives.clone();
    known[0] = [u64::MAX; 4];
    for via in 0..known.len() {
        known[via][via / 64] |= 1 << (via % 64);
        let below = known[via];
        for row in known.iter_mut().filter(|row| row[via / 64] >> (via % 64) & 1 == 1) {
            row.iter_mut().zip(below).for_each(|(word, more)| *word |= more);
        }
    }
    known
}

/// The pairs of universals where the first holds the end of the second and isn't known to outlive
/// it, by the first, then by the second.
pub fn faults<V: Value>(problem: &Problem, values: &[V]) -> Vec<(u32, u32)> {
    let known = known(problem);
    let mut faults = Vec::new();
    for a in 0..problem.universals {
        let row = &known[a as usize];
        faults.extend((0..problem.universals).filter_map(|b| {
            let is_known = row[b as usize / 64] >> (b % 64) & 1 == 1;
            (values[a as usize].has(problem.points + b) && !is_known).then_some((a, b))
        }));
    }
    faults
}

/// A line a fault, or `ok`.
pub fn fault_lines(
    problem: &Problem,
    faults: &[(u32, u32)],
    out: &mut impl Write,
) -> io::Result<()> {
    let mut text = Vec::new();
    for &(a, b) in faults {
        text.extend_from_slice(b"fault '");
        text.extend_from_slice(problem.names[a as usize]);
        text.extend_from_slice(b" must outlive '");
        text.extend_from_slice(problem.names[b as usize]);
        text.push(b'\n');
    }
    if faults.is_empty() {
        text.extend_from_slice(b"ok\n");
    }
    out.write_all(&text)
}
