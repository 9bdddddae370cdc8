//! Types with their regions, each kept once, and what the subtyping of two of them asks, worked out once.

use crate::body::Body;
use crate::shapes::{Form, Shape, Sign, Typed, DEREFERENCE};
use crate::tables::{hash_of, NumberMap};
use std::collections::hash_map::{Entry, HashMap};

/// The number of a type.
pub type Number = u32;

const NONE: Number = u32::MAX;

/// A shape, and where its items begin and end.
#[derive(Clone, Copy)]
struct Kept {
    shape: Shape,
    first: u32,
    end: u32,
}

/// The types of a body that were met so far.
pub struct Known<'b, 't> {
    body: &'b Body<'t>,
    types: Vec<Kept>,
    items: Vec<u32>,
    /// The types by the hash of their shape and items; those of one hash stand in a row of `next`.
    by_hash: NumberMap,
    next: Vec<Number>,
    of_variables: Vec<Number>,
    behind: NumberMap,
    references: NumberMap,
    /// For each shape that was compared the signs of its items' positions.
    signs: HashMap<Shape, Box<[Sign]>>,
    /// Where the pairs of two types begin and end in the list.
    asked: HashMap<(Number, Number), (u32, u32)>,
    pairs: Vec<(u32, u32)>,
    spare: Vec<u32>,
}

impl<'b, 't> Known<'b, 't> {
    pub fn new(body: &'b Body<'t>) -> Known<'b, 't> {
        Known {
            body,
            types: Vec::new(),
            items: Vec::new(),
            by_hash: NumberMap::default(),
            next: Vec::new(),
            of_variables: vec![NONE; body.variables.len()],
            behind: NumberMap::default(),
            references: NumberMap::default(),
            signs: HashMap::new(),
            asked: HashMap::new(),
            pairs: Vec::new(),
            spare: Vec::new(),
        }
    }

    pub fn shape(&self, number: Number) -> Shape {
        self.types[number as usize].shape
    }

    pub fn items(&self, number: Number) -> &[u32] {
        let kept = self.types[number as usize];
        &self.items[kept.first as usize..kept.end as usize]
    }

    /// The number of the type of this shape and these items.
    fn number(&mut self, shape: Shape, items: &[u32]) -> Number {
        let hash = hash_of(u64::from(shape), items) >> 1;
        let last = self.by_hash.get(hash);
        let mut at = last.unwrap_or(NONE);
        while at != NONE {
            if self.shape(at) == shape && self.items(at) == items {
                return at;
            }
            at = self.next[at as usize];
        }
        let first = self.items.len() as u32;
        self.items.extend_from_slice(items);
        self.types.push(Kept { shape, first, end: self.items.len() as u32 });
        self.next.push(last.unwrap_or(NONE));
        let number = self.next.len() as u32 - 1;
        self.by_hash.insert(hash, number);
        number
    }

    /// The number of a type that is written in the body.
    pub fn written(&mut self, typed: Typed) -> Number {
        let body = self.body;
        let count = body.shapes.items(typed.shape) as usize;
        self.number(typed.shape, &body.items[typed.first as usize..][..count])
    }

    pub fn of_variable(&mut self, variable: u32) -> Number {
        let at = variable as usize;
        if self.of_variables[at] == NONE {
            self.of_variables[at] = self.written(self.body.variables[at]);
        }
        self.of_variables[at]
    }

    /// The type behind a projection that the type has.
    pub fn behind(&mut self, number: Number, projection: u32) -> Number {
        let key = u64::from(number) << 32 | u64::from(projection);
        if let Some(found) = self.behind.get(key) {
            return found;
        }
        let (body, shape) = (self.body, self.shape(number));
        let behind = match projection {
            DEREFERENCE => body.shapes.parts(shape)[0],
            k => body.shapes.known_part(shape, k),
        };
        let mut items = std::mem::take(&mut self.spare);
        items.clear();
        if body.shapes.items(behind) > 0 {
            body.shapes.items_behind((shape, self.items(number)), projection, &mut items);
        }
        let found = self.number(behind, &items);
        self.spare = items;
        self.behind.insert(key, found);
        found
    }

    /// The type of this shape, that of references to the type, with this region.
    pub fn reference(&mut self, shape: Shape, region: u32, number: Number) -> Number {
        let mutable = self.body.shapes.form(shape) == Form::Reference { mutable: true };
        let key = u64::from(number) << 32 | u64::from(region) << 1 | u64::from(mutable);
        if let Some(found) = self.references.get(key) {
            return found;
        }
        let mut items = std::mem::take(&mut self.spare);
        items.clear();
        items.push(region);
        items.extend_from_slice(self.items(number));
        let found = self.number(shape, &items);
        self.spare = items;
        self.references.insert(key, found);
        found
    }

    /// The pairs that are asked where the first type is to be a subtype of the second, each once.
    pub fn pairs(&mut self, one: Number, other: Number) -> &[(u32, u32)] {
        let (first, end) = match self.asked.entry((one, other)) {
            Entry::Occupied(found) => *found.get(),
            Entry::Vacant(place) => {
                let (one, other) = (self.types[one as usize], self.types[other as usize]);
                let signs = self.signs.entry(one.shape).or_insert_with(|| {
                    let mut signs = Vec::new();
                    self.body.shapes.push_signs(one.shape, Sign::Covariant, &mut signs);
                    signs.into_boxed_slice()
                });
                let mut pairs = Vec::with_capacity(signs.len());
                let one = &self.items[one.first as usize..one.end as usize];
                let other = &self.items[other.first as usize..other.end as usize];
                for ((&a, &b), &sign) in one.iter().zip(other).zip(signs.iter()) {
                    if !matches!(sign, Sign::Contravariant) {
                        pairs.push((a, b));
                    }
                    if !matches!(sign, Sign::Covariant) {
                        pairs.push((b, a));
                    }
                }
                pairs.sort_unstable();
                pairs.dedup();
                let first = self.pairs.len() as u32;
                self.pairs.extend_from_slice(&pairs);
                *place.insert((first, self.pairs.len() as u32))
            }
        };
        &self.pairs[first as usize..end as usize]
    }
}
