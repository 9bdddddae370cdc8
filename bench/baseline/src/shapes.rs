//! Types without their regions, each kept once in a table, and the structs of a MIR text.
//!
//! A type is its shape and the list of its *items*, in the order of the text: a region for each
//! reference and each region argument. In the types of a struct's fields an item is a region of
//! the struct's parameters, and a type parameter is one item, which stands for all those of its
//! argument. So arguments are put in by copying lists, and parts are slices.

use crate::tables::{hash_of, NumberMap};

/// The number of a shape in the table.
pub type Shape = u32;

/// The shape of what has a fault.
pub const NONE: Shape = u32::MAX;

/// An empty slot of the table.
const EMPTY: u64 = u64::MAX;

/// The shape of `int`, which stands first in the table.
pub const INT: Shape = 0;

/// The greatest number of nodes of a type.
pub const NODES: u32 = 4_096;

/// So many nodes or more aren't counted any further.
const TOO_MANY: u32 = NODES + 1;

#[derive(Clone, Copy, PartialEq, Eq)]
pub enum Form {
    Int,
    /// A type parameter of a struct, by its number among them.
    Parameter(u32),
    Reference { mutable: bool },
    Tuple,
    /// A use of a struct, by its number; the parts are its type arguments.
    Struct(u32),
    /// A function; the parts are its arguments and then its result.
    Function,
}

impl Form {
    fn code(self) -> u64 {
        match self {
            Form::Int => 0,
            Form::Parameter(k) => 1 | u64::from(k) << 3,
            Form::Reference { mutable } => 2 | u64::from(mutable) << 3,
            Form::Tuple => 3,
            Form::Struct(s) => 4 | u64::from(s) << 3,
            Form::Function => 5,
        }
    }
}

#[derive(Clone, Copy)]
struct Node {
    form: Form,
    first: u32,
    parts: u32,
    /// At most `TOO_MANY`.
    nodes: u32,
    /// The number of items, at most `u32::MAX`.
    items: u32,
    /// Whether a type parameter stands in it.
    is_open: bool,
}

/// How a position stands in a type: which way subtyping is asked there.
#[derive(Clone, Copy)]
pub enum Sign {
    Covariant,
    Contravariant,
    Invariant,
}

impl Sign {
    /// The sign of a position of sign `inner` in what stands at a position of this sign.
    fn times(self, inner: Sign) -> Sign {
        match (self, inner) {
            (Sign::Covariant, sign) | (sign, Sign::Covariant) => sign,
            (Sign::Contravariant, Sign::Contravariant) => Sign::Covariant,
            (Sign::Invariant, _) | (_, Sign::Invariant) => Sign::Invariant,
        }
    }
}

/// What a struct's parameter is.
#[derive(Clone, Copy)]
pub struct Parameter {
    pub is_region: bool,
    pub sign: Sign,
    pub marked: bool,
}

/// A type: its shape, and where its items begin in a list.
#[derive(Clone, Copy)]
pub struct Typed {
    pub shape: Shape,
    pub first: u32,
}

/// Where the drop regions of a struct come from, by its parameters.
#[derive(Clone, Default)]
pub struct Sources {
    pub fixed: bool,
    /// Region parameters that are drop regions.
    pub regions: Vec<u32>,
    /// Type parameters all of whose regions are.
    pub any: Vec<u32>,
    /// Type parameters whose own drop regions are.
    pub drop: Vec<u32>,
}

/// The item of a field's type that is `'static`.
pub const STATIC_ITEM: u32 = u32::MAX;

/// An item of a field's type that is a type parameter is this and its number; other items are the
/// number of a region parameter.
pub const TYPE_ITEM: u32 = 1 << 31;

pub struct Struct {
    pub parameters: Vec<Parameter>,
    /// For each region parameter the number of type parameters before it.
    types_before: Vec<u32>,
    /// For each type parameter the number of region parameters before it.
    regions_before: Vec<u32>,
    /// The types of the fields; their items stand in `Shapes::items`.
    pub fields: Vec<Typed>,
    pub sources: Sources,
}

impl Struct {
    pub fn new(parameters: Vec<Parameter>, fields: Vec<Typed>, sources: Sources) -> Struct {
        let (mut types_before, mut regions_before) = (Vec::new(), Vec::new());
        for parameter in &parameters {
            if parameter.is_region {
                types_before.push(regions_before.len() as u32);
            } else {
                regions_before.push(types_before.len() as u32);
            }
        }
        Struct { parameters, types_before, regions_before, fields, sources }
    }
}

/// The table of shapes, and the structs.
pub struct Shapes {
    nodes: Vec<Node>,
    parts: Vec<Shape>,
    /// For each of the parts the items of the parts before it in its shape.
    items_before: Vec<u32>,
    /// The shapes by the hash of their nodes: the hash above, the shape below, or `EMPTY`.
    slots: Vec<u64>,
    pub structs: Vec<Struct>,
    /// The items of all fields.
    pub items: Vec<u32>,
    /// The shape of a field by the shape of the struct's use and the field's number.
    fields: NumberMap,
    /// The parts of shapes that are being made.
    made: Vec<Shape>,
}

impl Shapes {
    pub fn new() -> Shapes {
        let mut shapes = Shapes {
            nodes: Vec::new(),
            parts: Vec::new(),
            items_before: Vec::new(),
            slots: vec![EMPTY; 64],
            structs: Vec::new(),
            items: Vec::new(),
            fields: NumberMap::default(),
            made: Vec::new(),
        };
        shapes.add(Form::Int, &[]);
        shapes
    }

    pub fn form(&self, shape: Shape) -> Form {
        self.nodes[shape as usize].form
    }

    pub fn parts(&self, shape: Shape) -> &[Shape] {
        let node = &self.nodes[shape as usize];
        &self.parts[node.first as usize..][..node.parts as usize]
    }

    /// The number of nodes, where it is within the limit; else more than the limit.
    pub fn nodes(&self, shape: Shape) -> u32 {
        self.nodes[shape as usize].nodes
    }

    /// The number of items, where there are not too many to count.
    pub fn items(&self, shape: Shape) -> u32 {
        self.nodes[shape as usize].items
    }

    /// The slot that has this node, or the empty one where it belongs.
    fn slot_of(&self, hash: u64, form: Form, parts: &[Shape]) -> usize {
        let mask = self.slots.len() - 1;
        let mut slot = hash as usize & mask;
        loop {
            let held = self.slots[slot];
            let shape = held as Shape;
            let is_same = || self.form(shape) == form && self.parts(shape) == parts;
            if held == EMPTY || (held >> 32 == hash && is_same()) {
                return slot;
            }
            slot = (slot + 1) & mask;
        }
    }

    fn double(&mut self) {
        let size = self.slots.len() * 2;
        let old = std::mem::replace(&mut self.slots, vec![EMPTY; size]);
        for held in old.into_iter().filter(|&held| held != EMPTY) {
            let mut slot = (held >> 32) as usize & (size - 1);
            while self.slots[slot] != EMPTY {
                slot = (slot + 1) & (size - 1);
            }
            self.slots[slot] = held;
        }
    }

    /// The shape of this form over these parts, none of which has a fault.
    pub fn add(&mut self, form: Form, parts: &[Shape]) -> Shape {
        if self.nodes.len() * 2 >= self.slots.len() {
            self.double();
        }
        let hash = hash_of(form.code(), parts) & 0xFFFF_FFFF;
        let slot = self.slot_of(hash, form, parts);
        if self.slots[slot] != EMPTY {
            return self.slots[slot] as Shape;
        }
        let own = match form {
            Form::Int | Form::Tuple | Form::Function => 0,
            Form::Parameter(_) | Form::Reference { .. } => 1,
            Form::Struct(s) => self.structs[s as usize].types_before.len() as u32,
        };
        let mut node = Node {
            form,
            first: self.parts.len() as u32,
            parts: parts.len() as u32,
            nodes: 1,
            items: own,
            is_open: matches!(form, Form::Parameter(_)),
        };
        for &part in parts {
            let part = &self.nodes[part as usize];
            self.items_before.push(node.items - own);
            node.nodes = TOO_MANY.min(node.nodes + part.nodes);
            node.items = node.items.saturating_add(part.items);
            node.is_open |= part.is_open;
        }
        let shape = self.nodes.len() as u32;
        self.parts.extend_from_slice(parts);
        self.nodes.push(node);
        self.slots[slot] = hash << 32 | u64::from(shape);
        shape
    }

    /// The shape with arguments put in for the type parameters: those parts that begin at a place.
    ///
    /// The shape is one of a field, so its depth is within the limit.
    fn put_in(&mut self, shape: Shape, arguments: u32, made: &mut Vec<Shape>) -> Shape {
        let node = self.nodes[shape as usize];
        if !node.is_open {
            return shape;
        }
        if let Form::Parameter(k) = node.form {
            return self.parts[(arguments + k) as usize];
        }
        let first = made.len();
        for k in 0..node.parts {
            let part = self.put_in(self.parts[(node.first + k) as usize], arguments, made);
            made.push(part);
        }
        let shape = self.add(node.form, &made[first..]);
        made.truncate(first);
        shape
    }

    /// How many items of a shape stand before those of a part.
    fn items_before(&self, shape: Shape, k: u32) -> u32 {
        let node = &self.nodes[shape as usize];
        let parts = self.items_before[(node.first + k) as usize];
        match node.form {
            Form::Reference { .. } => 1,
            Form::Struct(s) => parts + self.structs[s as usize].regions_before[k as usize],
            _ => parts,
        }
    }

    /// The item that a struct's use has for a region parameter.
    fn region_argument(&self, s: u32, shape: Shape, items: &[u32], region: u32) -> u32 {
        let node = &self.nodes[shape as usize];
        let types = self.structs[s as usize].types_before[region as usize];
        let parts = match types {
            0 => 0,
            _ => {
                let last = (node.first + types - 1) as usize;
                self.items_before[last] + self.items(self.parts[last])
            }
        };
        items[(region + parts) as usize]
    }

    /// Appends the items of a place's type with one projection more.
    pub fn items_behind(&self, typed: (Shape, &[u32]), projection: u32, out: &mut Vec<u32>) {
        let (shape, items) = typed;
        let k = if projection == DEREFERENCE { 0 } else { projection };
        let Form::Struct(s) = self.form(shape) else {
            let first = self.items_before(shape, k) as usize;
            let count = self.items(self.parts(shape)[k as usize]) as usize;
            out.extend_from_slice(&items[first..][..count]);
            return;
        };
        let field = self.structs[s as usize].fields[k as usize];
        let count = self.items(field.shape) as usize;
        for &item in &self.items[field.first as usize..][..count] {
            if item == STATIC_ITEM {
                out.push(0);
            } else if item & TYPE_ITEM == 0 {
                out.push(self.region_argument(s, shape, items, item));
            } else {
                let argument = item & !TYPE_ITEM;
                let first = self.items_before(shape, argument) as usize;
                let part = self.parts(shape)[argument as usize];
                out.extend_from_slice(&items[first..][..self.items(part) as usize]);
            }
        }
    }

    /// Appends for each item of a shape the sign of its position.
    pub fn push_signs(&self, shape: Shape, outer: Sign, out: &mut Vec<Sign>) {
        match self.form(shape) {
            Form::Int | Form::Parameter(_) => {}
            Form::Reference { mutable } => {
                out.push(outer);
                let behind = if mutable { Sign::Invariant } else { outer };
                self.push_signs(self.parts(shape)[0], behind, out);
            }
            Form::Tuple => {
                for &part in self.parts(shape) {
                    self.push_signs(part, outer, out);
                }
            }
            Form::Function => {
                let parts = self.parts(shape);
                let result = parts.len() - 1;
                for &part in &parts[..result] {
                    self.push_signs(part, outer.times(Sign::Contravariant), out);
                }
                self.push_signs(parts[result], outer, out);
            }
            Form::Struct(s) => {
                let mut parts = self.parts(shape).iter();
                for parameter in &self.structs[s as usize].parameters {
                    let sign = outer.times(parameter.sign);
                    if parameter.is_region {
                        out.push(sign);
                    } else if let Some(&part) = parts.next() {
                        self.push_signs(part, sign, out);
                    }
                }
            }
        }
    }

    /// The number of fields or parts of a tuple or struct.
    pub fn width(&self, shape: Shape) -> Option<u32> {
        match self.form(shape) {
            Form::Tuple => Some(self.nodes[shape as usize].parts),
            Form::Struct(s) => Some(self.structs[s as usize].fields.len() as u32),
            _ => None,
        }
    }

    /// The shape of a part or field that was asked for before.
    pub fn known_part(&self, shape: Shape, k: u32) -> Shape {
        let Form::Struct(s) = self.form(shape) else {
            return self.parts(shape)[k as usize];
        };
        let field = self.structs[s as usize].fields[k as usize].shape;
        self.fields.get(u64::from(shape) << 32 | u64::from(k)).unwrap_or(field)
    }

    /// The shape of a part of a tuple or of a field of a struct that it has.
    pub fn part(&mut self, shape: Shape, k: u32) -> Shape {
        let Form::Struct(s) = self.form(shape) else {
            return self.parts(shape)[k as usize];
        };
        let field = self.structs[s as usize].fields[k as usize].shape;
        if !self.nodes[field as usize].is_open {
            return field;
        }
        let key = u64::from(shape) << 32 | u64::from(k);
        if let Some(found) = self.fields.get(key) {
            return found;
        }
        let arguments = self.nodes[shape as usize].first;
        let mut made = std::mem::take(&mut self.made);
        let found = self.put_in(field, arguments, &mut made);
        self.made = made;
        self.fields.insert(key, found);
        found
    }

    /// The shape of a place with one projection more: a number, or `DEREFERENCE`.
    pub fn behind(&mut self, shape: Shape, projection: u32) -> Option<Shape> {
        if projection == DEREFERENCE {
            let is_reference = matches!(self.form(shape), Form::Reference { .. });
            return is_reference.then(|| self.parts(shape)[0]);
        }
        let width = self.width(shape)?;
        (projection < width).then(|| self.part(shape, projection))
    }

    /// Gathers where the drop regions of a type come from: its items, by `item`, and of a type
    /// parameter whether all regions of its argument count or the drop regions.
    ///
    /// With `any` all regions of the type count; `drop` asks for its drop regions.
    pub fn drop_sources(
        &self,
        shape: Shape,
        items: &[u32],
        any: bool,
        drop: bool,
        out: &mut impl FnMut(Source),
    ) {
        match self.form(shape) {
            Form::Int => {}
            Form::Parameter(k) => {
                if any {
                    out(Source::Any(k));
                }
                if drop {
                    out(Source::Drop(k));
                }
            }
            Form::Reference { .. } => {
                if any {
                    out(Source::Region(items[0]));
                    self.drop_sources(self.parts(shape)[0], &items[1..], true, false, out);
                }
            }
            Form::Tuple => {
                let mut first = 0;
                for &part in self.parts(shape) {
                    self.drop_sources(part, &items[first..], any, drop, out);
                    first += self.items(part) as usize;
                }
            }
            Form::Function => {
                let mut first = 0;
                for &part in self.parts(shape).iter().filter(|_| any) {
                    self.drop_sources(part, &items[first..], true, false, out);
                    first += self.items(part) as usize;
                }
            }
            Form::Struct(s) => self.struct_sources(s, shape, items, any, drop, out),
        }
    }

    fn struct_sources(
        &self,
        s: u32,
        shape: Shape,
        items: &[u32],
        any: bool,
        drop: bool,
        out: &mut impl FnMut(Source),
    ) {
        let Struct { parameters, sources, .. } = &self.structs[s as usize];
        if drop && sources.fixed {
            out(Source::Region(STATIC_ITEM));
        }
        let (mut first, mut region, mut argument) = (0, 0, 0);
        for parameter in parameters {
            if parameter.is_region {
                if any || (drop && sources.regions.binary_search(&region).is_ok()) {
                    out(Source::Region(items[first]));
                }
                region += 1;
                first += 1;
            } else {
                let part = self.parts(shape)[argument as usize];
                let any = any || (drop && sources.any.binary_search(&argument).is_ok());
                let drop = drop && sources.drop.binary_search(&argument).is_ok();
                if any || drop {
                    self.drop_sources(part, &items[first..], any, drop, out);
                }
                argument += 1;
                first += self.items(part) as usize;
            }
        }
    }

    /// Where the drop regions of a struct come from, given its parameters and fields.
    pub fn sources_of(&self, parameters: &[Parameter], drop: bool, fields: &[Typed]) -> Sources {
        let mut found = Sources::default();
        let (mut region, mut argument) = (0, 0);
        for parameter in parameters {
            let counts = drop && !parameter.marked;
            if parameter.is_region {
                found.regions.extend(counts.then_some(region));
                region += 1;
            } else {
                found.any.extend(counts.then_some(argument));
                argument += 1;
            }
        }
        for field in fields {
            let items = &self.items[field.first as usize..];
            self.drop_sources(field.shape, items, false, true, &mut |source| match source {
                Source::Region(STATIC_ITEM) => found.fixed = true,
                Source::Region(item) => found.regions.push(item),
                Source::Any(k) => found.any.push(k),
                Source::Drop(k) => found.drop.push(k),
            });
        }
        for list in [&mut found.regions, &mut found.any, &mut found.drop] {
            list.sort_unstable();
            list.dedup();
        }
        found
    }
}

/// A part of where drop regions come from.
pub enum Source {
    Region(u32),
    Any(u32),
    Drop(u32),
}

/// The projection `*`; others are the number of a part.
pub const DEREFERENCE: u32 = u32::MAX;
