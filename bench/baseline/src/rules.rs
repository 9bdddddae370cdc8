//! The problem of a body: liveness, drop regions, and what its statements ask.

use crate::body::{Body, Call, Line, Make, CONST};
use crate::known::{Known, Number};
use crate::problem::{count, join, push_point, Constraint, Labels, Problem, ALL};
use crate::runs::Run;
use crate::shapes::{Form, Source, Typed, STATIC_ITEM};
use crate::tables::Lists;
use crate::text::CONSTRAINTS;

/// No variable.
const NONE: u32 = u32::MAX;

/// For each point those at which it goes on.
fn successors(body: &Body) -> Lists {
    let mut starts = Vec::with_capacity(body.lines.len() + 1);
    let mut items = Vec::with_capacity(body.edges);
    let (mut first, mut terminators) = (0, 0);
    for (p, line) in body.lines.iter().enumerate() {
        starts.push(items.len() as u32);
        if is_statement(line) {
            items.push(p as u32 + 1);
        } else {
            let end = body.target_ends[terminators] as usize;
            let targets = &body.targets[first..end];
            items.extend(targets.iter().map(|&block| body.blocks[block as usize]));
            (first, terminators) = (end, terminators + 1);
        }
    }
    starts.push(items.len() as u32);
    Lists { starts, items }
}

fn is_statement(line: &Line) -> bool {
    use Line::*;
    matches!(line, Assign { .. } | Borrow { .. } | Make(_) | Read(_) | Mark(_) | Nop)
}

/// The operands of a `make` or a call.
fn operands_in<'b>(body: &'b Body, range: (u32, u32)) -> &'b [u32] {
    &body.operands[range.0 as usize..range.1 as usize]
}

/// Calls `found` with each variable that the line uses.
fn uses(body: &Body, line: &Line, mut found: impl FnMut(u32)) {
    let mut operands = |list: &[u32]| {
        for &operand in list.iter().filter(|&&operand| operand != CONST) {
            found(body.places[operand as usize].variable);
        }
    };
    match *line {
        Line::Assign { operand, .. } | Line::Switch { operand } => operands(&[operand]),
        Line::Borrow { borrowed, .. } => operands(&[borrowed]),
        Line::Make(number) => operands(operands_in(body, body.makes[number as usize].operands)),
        Line::Call(number) => operands(operands_in(body, body.calls[number as usize].operands)),
        Line::Read(place) => operands(&[place]),
        Line::Return => found(0),
        Line::Mark(_) | Line::Nop | Line::Goto | Line::Drop { .. } | Line::Stop => {}
    }
    if let Some(place) = target(body, line) {
        if !body.projections(place).is_empty() {
            found(body.places[place as usize].variable);
        }
    }
}

/// The place that a line assigns to.
fn target(body: &Body, line: &Line) -> Option<u32> {
    match *line {
        Line::Assign { place, .. } | Line::Borrow { place, .. } => Some(place),
        Line::Make(number) => Some(body.makes[number as usize].place),
        Line::Call(number) => Some(body.calls[number as usize].place),
        _ => None,
    }
}

/// The variable that a line defines.
fn defined(body: &Body, line: &Line) -> u32 {
    if let Line::Mark(variable) = *line {
        return variable;
    }
    let place = target(body, line).filter(|&place| body.projections(place).is_empty());
    place.map_or(NONE, |place| body.places[place as usize].variable)
}

/// The search for where variables are live, backwards from their uses or drops.
struct Liveness<'b> {
    predecessors: &'b Lists,
    /// For each point the variable that it defines.
    defined: Vec<u32>,
    /// For each point the last search that found it.
    marks: Vec<u32>,
    turn: u32,
}

impl Liveness<'_> {
    /// The points from which a walk leads to one of these, with no definition before it.
    fn live(&mut self, variable: u32, uses: &[u32]) -> Vec<u32> {
        self.turn += 1;
        let mut found = Vec::new();
        for &p in uses {
            self.visit(p, &mut found);
        }
        let mut next = 0;
        while next < found.len() {
            for &p in self.predecessors.of(found[next]) {
                if self.defined[p as usize] != variable {
                    self.visit(p, &mut found);
                }
            }
            next += 1;
        }
        found.sort_unstable();
        found
    }

    fn visit(&mut self, p: u32, found: &mut Vec<u32>) {
        if std::mem::replace(&mut self.marks[p as usize], self.turn) != self.turn {
            found.push(p);
        }
    }
}

/// The regions in a type, each once.
fn regions_in(body: &Body, typed: Typed) -> Vec<u32> {
    let count = body.shapes.items(typed.shape) as usize;
    let mut regions = body.items[typed.first as usize..][..count].to_vec();
    regions.sort_unstable();
    regions.dedup();
    regions
}

/// The drop regions of a type, each once.
fn drop_regions(body: &Body, typed: Typed) -> Vec<u32> {
    let mut regions = Vec::new();
    let items = &body.items[typed.first as usize..];
    body.shapes.drop_sources(typed.shape, items, false, true, &mut |source| {
        if let Source::Region(region) = source {
            regions.push(if region == STATIC_ITEM { 0 } else { region });
        }
    });
    regions.sort_unstable();
    regions.dedup();
    regions
}

/// For each region its base points: where a variable with it in its type is live.
pub fn bases(body: &Body, successors: &Lists) -> Vec<Vec<Run>> {
    let (mut used, mut dropped) = (Vec::new(), Vec::new());
    for (p, line) in body.lines.iter().enumerate() {
        uses(body, line, |variable| used.push((variable, p as u32)));
        if let Line::Drop { variable } = *line {
            dropped.push((variable, p as u32));
        }
    }
    let used = Lists::of_pairs(body.variables.len(), &used);
    let dropped = Lists::of_pairs(body.variables.len(), &dropped);
    let mut liveness = Liveness {
        predecessors: &successors.turned(),
        defined: body.lines.iter().map(|line| defined(body, line)).collect(),
        marks: vec![0; body.lines.len()],
        turn: 0,
    };
    let mut bases = vec![Vec::new(); body.names.list.len()];
    let mut add = |regions: Vec<u32>, variable: u32, points: &[u32]| {
        if !regions.is_empty() && !points.is_empty() {
            let mut live = Vec::new();
            liveness.live(variable, points).into_iter().for_each(|p| push_point(&mut live, p));
            regions.iter().for_each(|&region| bases[region as usize].extend_from_slice(&live));
        }
    };
    for (variable, &typed) in body.variables.iter().enumerate() {
        let variable = variable as u32;
        add(regions_in(body, typed), variable, used.of(variable));
        if !dropped.of(variable).is_empty() {
            add(drop_regions(body, typed), variable, dropped.of(variable));
        }
    }
    bases.iter_mut().for_each(join);
    bases
}

/// What the statements of a body ask, pair by pair, some perhaps more than once.
struct Asking<'b, 't> {
    body: &'b Body<'t>,
    known: Known<'b, 't>,
    pairs: Vec<(u32, u32)>,
    crossed: Vec<u32>,
}

impl Asking<'_, '_> {
    /// The type of a place; puts the regions of the references on which a borrow of the place rests
    /// in `crossed`.
    fn walk(&mut self, place: u32) -> Number {
        let body = self.body;
        let mut number = self.known.of_variable(body.places[place as usize].variable);
        self.crossed.clear();
        for &projection in body.projections(place) {
            if let Form::Reference { mutable } = body.shapes.form(self.known.shape(number)) {
                if !mutable {
                    self.crossed.clear();
                }
                self.crossed.push(self.known.items(number)[0]);
            }
            number = self.known.behind(number, projection);
        }
        number
    }

    /// Asks that one type be a subtype of another of its shape.
    fn want(&mut self, one: Number, other: Number) {
        self.pairs.extend_from_slice(self.known.pairs(one, other));
    }

    /// Asks that the type of an operand be a subtype of another.
    fn want_operand(&mut self, operand: u32, other: Number) {
        if operand != CONST {
            let one = self.walk(operand);
            self.want(one, other);
        }
    }

    fn borrow(&mut self, place: u32, region: u32, borrowed: u32) {
        let inner = self.walk(borrowed);
        self.pairs.extend(self.crossed.iter().map(|&crossed| (crossed, region)));
        let other = self.walk(place);
        let one = self.known.reference(self.known.shape(other), region, inner);
        self.want(one, other);
    }

    fn make(&mut self, make: &Make) {
        let made = self.known.written(make.made);
        for (k, &operand) in operands_in(self.body, make.operands).iter().enumerate() {
            let field = self.known.behind(made, k as u32);
            self.want_operand(operand, field);
        }
        let place = self.walk(make.place);
        self.want(made, place);
    }

    fn call(&mut self, call: &Call) {
        let body = self.body;
        let types = &body.types[call.types as usize..];
        for (&operand, &typed) in operands_in(body, call.operands).iter().zip(types) {
            let other = self.known.written(typed);
            self.want_operand(operand, other);
        }
        let result = self.known.written(call.result);
        let place = self.walk(call.place);
        self.want(result, place);
        self.pairs.extend_from_slice(&body.pairs[call.pairs.0 as usize..call.pairs.1 as usize]);
    }

    /// Puts what a line asks in `pairs`.
    fn ask(&mut self, line: &Line) {
        let body = self.body;
        self.pairs.clear();
        match *line {
            Line::Assign { place, operand } => {
                if operand != CONST {
                    let other = self.walk(place);
                    self.want_operand(operand, other);
                }
            }
            Line::Borrow { place, region, borrowed } => {
                self.borrow(place, u32::from(region), borrowed);
            }
            Line::Make(number) => self.make(&body.makes[number as usize]),
            Line::Call(number) => self.call(&body.calls[number as usize]),
            _ => {}
        }
    }
}

/// Stands in a key in place of a point for all points; no point has this number.
const KEY_OF_ALL: u64 = 1 << 20;

/// The keys, each once, where they aren't more than the limit.
fn distinct(keys: &mut Vec<u64>) -> Option<()> {
    keys.sort_unstable();
    keys.dedup();
    (keys.len() <= CONSTRAINTS).then_some(())
}

/// The constraints of a body, or None where they are too many.
fn constraints(body: &Body, successors: &Lists) -> Option<Vec<Constraint>> {
    let mut asking = Asking {
        body,
        known: Known::new(body),
        pairs: Vec::new(),
        crossed: Vec::new(),
    };
    // A region, a point or `KEY_OF_ALL`, and a region.
    let key = |at: u64, sup: u32, sub: u32| u64::from(sub) << 37 | at << 16 | u64::from(sup);
    let mut keys: Vec<u64> =
        body.asserts.iter().map(|&(sup, sub)| key(KEY_OF_ALL, sup, sub)).collect();
    for (p, line) in body.lines.iter().enumerate() {
        asking.ask(line);
        for &q in successors.of(p as u32) {
            keys.extend(asking.pairs.iter().map(|&(sup, sub)| key(u64::from(q), sup, sub)));
        }
        if keys.len() > 4 * CONSTRAINTS {
            distinct(&mut keys)?;
        }
    }
    distinct(&mut keys)?;
    let constraint = |key: u64| {
        let at = key >> 16 & 0x1F_FFFF;
        Constraint {
            sub: (key >> 37) as u32,
            at: if at == KEY_OF_ALL { ALL } else { at as u32 },
            sup: key as u32 & 0xFFFF,
        }
    };
    Some(keys.into_iter().map(constraint).collect())
}

/// How many pairs of a region and one of its base points a body has.
pub fn base_count(body: &Body<'_>) -> usize {
    bases(body, &successors(body)).iter().map(|runs| count(runs)).sum()
}

/// The problem of a body, or None where its constraints are too many.
pub fn problem(body: Body<'_>) -> Option<Problem<'_>> {
    let successors = successors(&body);
    let bases = bases(&body, &successors);
    let constraints = constraints(&body, &successors)?;
    Some(Problem {
        points: body.lines.len() as u32,
        universals: body.universals,
        names: body.names.list,
        successors,
        returns: body.lines.iter().map(|line| matches!(line, Line::Return)).collect(),
        bases,
        constraints,
        outlives: body.outlives,
        labels: Labels::Blocks(body.blocks),
    })
}
