//! The reader of facts texts, versions 1 and 2: one pass over the bytes, no allocation for a line.

use crate::problem::{join, push_point, Constraint, Labels, Problem, Universals, ALL};
use crate::runs::Run;
use crate::tables::{Edges, KeySet, Names};
use crate::text::{
    Cursor, Format, Kind, What, CONSTRAINTS, EDGES, POINTS, REGIONS, UNIVERSALS,
};

/// The groups of lines in their order; in a text before its `points` line none is reached.
const POINTS_GROUP: u8 = 1;
const UNIVERSAL_GROUP: u8 = 2;
const OUTLIVES_GROUP: u8 = 3;
const REGION_GROUP: u8 = 4;
const FACTS_GROUP: u8 = 5;
const END_GROUP: u8 = 6;

/// What the lines up to here said.
pub struct Facts<'t> {
    /// Whether the text is of version 2, where constraints may hold at all points.
    is_second: bool,
    reached: u8,
    points: u32,
    universals: u32,
    names: Names<'t>,
    outlives: Vec<Universals>,
    edges: Edges,
    returns: Vec<bool>,
    bases: Vec<Vec<Run>>,
    constraints: Vec<Constraint>,
    known_constraints: KeySet,
}

impl<'t> Facts<'t> {
    pub fn new() -> Facts<'t> {
        let mut names = Names::default();
        names.declare(b"static");
        Facts {
            is_second: false,
            reached: 0,
            points: 0,
            universals: 1,
            names,
            outlives: vec![[0; 4]],
            edges: Edges::new(0),
            returns: Vec::new(),
            bases: vec![Vec::new()],
            constraints: Vec::new(),
            known_constraints: KeySet::default(),
        }
    }

    /// Enters a group: once for `points` and `end`, and nothing else stands before `points`.
    fn enter(&mut self, group: u8) -> Result<(), Kind> {
        let repeats = group != POINTS_GROUP && group != END_GROUP;
        let follows = self.reached < group || (self.reached == group && repeats);
        if !follows || (self.reached == 0 && group != POINTS_GROUP) {
            return Err(Kind::Syntax);
        }
        self.reached = group;
        Ok(())
    }

    /// Asks that the number is one of a point.
    fn in_range(&self, p: u32) -> Result<(), Kind> {
        if p < self.points { Ok(()) } else { Err(Kind::Range) }
    }

    fn declare(&mut self, name: &'t [u8], universal: bool) -> Result<(), Kind> {
        let full = self.names.list.len() >= REGIONS;
        if !self.names.declare(name) {
            return Err(Kind::Duplicate);
        }
        if universal && self.universals >= UNIVERSALS {
            return Err(Kind::Limit(What::Universals));
        }
        if full {
            return Err(Kind::Limit(What::Regions));
        }
        self.bases.push(Vec::new());
        if universal {
            self.universals += 1;
            self.outlives.push([0; 4]);
        }
        Ok(())
    }

    /// The number of a universal region.
    fn universal(&mut self, name: &[u8]) -> Result<usize, Kind> {
        match self.names.number_of(name) {
            Some(number) if number < self.universals => Ok(number as usize),
            _ => Err(Kind::Unknown),
        }
    }

    fn points_line(&mut self, cursor: &mut Cursor<'t>) -> Result<(), Kind> {
        let points = cursor.number()?;
        cursor.close()?;
        self.enter(POINTS_GROUP)?;
        if points == 0 {
            return Err(Kind::Range);
        }
        if points > POINTS {
            return Err(Kind::Limit(What::Points));
        }
        self.points = points;
        self.edges = Edges::new(points);
        self.returns = vec![false; points as usize];
        Ok(())
    }

    fn declaring_line(&mut self, cursor: &mut Cursor<'t>, group: u8) -> Result<(), Kind> {
        let name = cursor.region()?;
        cursor.close()?;
        self.enter(group)?;
        self.declare(name, group == UNIVERSAL_GROUP)
    }

    fn outlives_line(&mut self, cursor: &mut Cursor<'t>) -> Result<(), Kind> {
        let (sup, sub) = (cursor.region()?, cursor.region()?);
        cursor.close()?;
        self.enter(OUTLIVES_GROUP)?;
        let (sup, sub) = (self.universal(sup)?, self.universal(sub)?);
        self.outlives[sup][sub / 64] |= 1 << (sub % 64);
        Ok(())
    }

    fn next_line(&mut self, cursor: &mut Cursor<'t>) -> Result<(), Kind> {
        let (p, q) = (cursor.number()?, cursor.number()?);
        cursor.close()?;
        self.enter(FACTS_GROUP)?;
        self.in_range(p)?;
        self.in_range(q)?;
        self.edges.insert(p, q);
        if self.edges.len() > EDGES { Err(Kind::Limit(What::Edges)) } else { Ok(()) }
    }

    fn return_line(&mut self, cursor: &mut Cursor<'t>) -> Result<(), Kind> {
        let p = cursor.number()?;
        cursor.close()?;
        self.enter(FACTS_GROUP)?;
        self.in_range(p)?;
        self.returns[p as usize] = true;
        Ok(())
    }

    fn base_line(&mut self, cursor: &mut Cursor<'t>) -> Result<(), Kind> {
        let (name, p) = (cursor.region()?, cursor.number()?);
        cursor.close()?;
        self.enter(FACTS_GROUP)?;
        let region = self.names.number_of(name).ok_or(Kind::Unknown)?;
        self.in_range(p)?;
        push_point(&mut self.bases[region as usize], p);
        Ok(())
    }

    fn constraint_line(&mut self, cursor: &mut Cursor<'t>) -> Result<(), Kind> {
        let (sup, sub) = (cursor.region()?, cursor.region()?);
        let everywhere = self.is_second && cursor.has_word(b"all");
        let at = if everywhere { ALL } else { cursor.number()? };
        cursor.close()?;
        self.enter(FACTS_GROUP)?;
        let sup = self.names.number_of(sup).ok_or(Kind::Unknown)?;
        let sub = self.names.number_of(sub).ok_or(Kind::Unknown)?;
        if !everywhere {
            self.in_range(at)?;
        }
        let key = u64::from(sup) << 48 | u64::from(sub) << 32 | u64::from(at);
        if !self.known_constraints.insert(key) {
            return Ok(());
        }
        if self.known_constraints.len() > CONSTRAINTS {
            return Err(Kind::Limit(What::Constraints));
        }
        self.constraints.push(Constraint { sub, at, sup });
        Ok(())
    }

    /// The problem of all lines: each fact once.
    pub fn finish(self) -> Problem<'t> {
        let Facts { mut bases, mut constraints, .. } = self;
        bases.iter_mut().for_each(join);
        constraints.sort_unstable();
        Problem {
            points: self.points,
            universals: self.universals,
            names: self.names.list,
            successors: self.edges.into_lists(),
            returns: self.returns,
            bases,
            constraints,
            outlives: self.outlives,
            labels: Labels::Numbers,
        }
    }
}

impl<'t> Format<'t> for Facts<'t> {
    const NAME: &'static [u8] = b"nll-facts";
    const VERSIONS: &'static [&'static [u8]] = &[b"1", b"2"];

    fn begin(&mut self, version: usize) {
        self.is_second = version == 1;
    }

    fn line(&mut self, cursor: &mut Cursor<'t>) -> Result<(), Kind> {
        match cursor.word() {
            b"base" => self.base_line(cursor),
            b"next" => self.next_line(cursor),
            b"constraint" => self.constraint_line(cursor),
            b"region" => self.declaring_line(cursor, REGION_GROUP),
            b"return" => self.return_line(cursor),
            b"outlives" => self.outlives_line(cursor),
            b"universal" => self.declaring_line(cursor, UNIVERSAL_GROUP),
            b"points" => self.points_line(cursor),
            b"end" => cursor.close().and_then(|()| self.enter(END_GROUP)),
            _ => Err(Kind::Syntax),
        }
    }

    fn is_ended(&self) -> bool {
        self.reached == END_GROUP
    }
}
