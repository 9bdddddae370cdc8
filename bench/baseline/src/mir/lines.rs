//! The lines of a body: places and operands, blocks, statements and terminators.

use super::{Reader, BLOCKS_GROUP, BODY_GROUP, END_GROUP};
use crate::body::{Call, Line, Make, Place, CONST};
use crate::shapes::{Form, Shape, DEREFERENCE, INT, NODES, NONE};
use crate::text::{Cursor, Kind, What, EDGES, POINTS};

impl<'t> Reader<'t> {
    // Places and operands

    /// A variable that stands here; its shape, or `NONE` where it isn't declared.
    fn variable(&mut self, cursor: &mut Cursor<'t>) -> Result<(u32, Shape), Kind> {
        let variable = cursor.numbered(b"_")?;
        let found = self.body.variables.get(variable as usize);
        let shape = found.map_or(NONE, |typed| typed.shape);
        self.note_if(shape == NONE, Kind::Unknown);
        Ok((variable, shape))
    }

    /// A place that stands here: its number and its shape.
    pub(super) fn place(&mut self, cursor: &mut Cursor<'t>) -> Result<(u32, Shape), Kind> {
        let number = self.body.places.len() as u32;
        let first = self.body.projections.len() as u32;
        let (variable, mut shape) = self.variable(cursor)?;
        while cursor.has_sign(b'.') {
            let projection = if cursor.has_sign(b'*') { DEREFERENCE } else { cursor.number()? };
            self.body.projections.push(projection);
            if shape != NONE {
                shape = self.behind(shape, projection);
            }
        }
        self.body.places.push(Place { variable, first });
        Ok((number, shape))
    }

    fn behind(&mut self, shape: Shape, projection: u32) -> Shape {
        match self.body.shapes.behind(shape, projection) {
            None => {
                self.note(Kind::Shape);
                NONE
            }
            Some(behind) => {
                self.note_if(self.body.shapes.nodes(behind) > NODES, Kind::TypeSize);
                behind
            }
        }
    }

    /// An operand that stands here: the number of its place or `CONST`, and its shape.
    fn operand(&mut self, cursor: &mut Cursor<'t>) -> Result<(u32, Shape), Kind> {
        if cursor.has_word(b"copy") || cursor.has_word(b"move") {
            return self.place(cursor);
        }
        if cursor.has_word(b"const") { Ok((CONST, INT)) } else { Err(Kind::Syntax) }
    }

    /// Asks that two types are equal when regions are forgotten.
    fn same(&mut self, one: Shape, other: Shape) {
        self.note_if(one != other && one != NONE && other != NONE, Kind::Shape);
    }

    // Blocks and points

    pub(super) fn blocks_line(&mut self, cursor: &mut Cursor<'t>) -> Result<(), Kind> {
        let count = cursor.number()?;
        cursor.close()?;
        self.enter(BLOCKS_GROUP)?;
        self.note_if(count == 0, Kind::Range);
        self.note_if(count > POINTS, Kind::Limit(What::Points));
        if self.fault.is_none() {
            self.wanted = count;
            self.seen = vec![u32::MAX; count as usize];
        }
        Ok(())
    }

    pub(super) fn block_line(&mut self, cursor: &mut Cursor<'t>) -> Result<(), Kind> {
        let number = cursor.numbered(b"bb")?;
        cursor.close()?;
        self.enter(BODY_GROUP)?;
        let count = self.body.blocks.len() as u32;
        self.note_if(number != count || number >= self.wanted, Kind::Range);
        self.body.blocks.push(self.body.lines.len() as u32);
        self.is_open = true;
        Ok(())
    }

    pub(super) fn end_line(&mut self, cursor: &mut Cursor<'t>) -> Result<(), Kind> {
        cursor.close()?;
        self.enter(END_GROUP)?;
        self.note_if((self.body.blocks.len() as u32) < self.wanted, Kind::Range);
        Ok(())
    }

    /// A block that stands here, as a target of this line.
    pub(super) fn target(&mut self, cursor: &mut Cursor<'t>) -> Result<(), Kind> {
        let block = cursor.numbered(b"bb")?;
        match self.seen.get_mut(block as usize) {
            None => self.note(Kind::Range),
            Some(seen) => {
                let point = self.body.lines.len() as u32;
                if std::mem::replace(seen, point) != point {
                    self.body.targets.push(block);
                }
            }
        }
        Ok(())
    }

    /// The targets of a drop or call.
    fn targets(&mut self, cursor: &mut Cursor<'t>) -> Result<(), Kind> {
        cursor.arrow()?;
        self.target(cursor)?;
        if cursor.has_word(b"unwind") { self.target(cursor) } else { Ok(()) }
    }

    /// Adds a point whose line is read to its end.
    pub(super) fn point(&mut self, cursor: &mut Cursor<'t>, line: Line, is_last: bool) -> Result<(), Kind> {
        cursor.close()?;
        if !self.is_open {
            return Err(Kind::Syntax);
        }
        self.note_if(self.body.lines.len() >= POINTS as usize, Kind::Limit(What::Points));
        if is_last {
            let end = self.body.targets.len();
            let first = self.body.target_ends.last().map_or(0, |&end| end as usize);
            self.body.target_ends.push(end as u32);
            self.body.edges += end - first;
        } else {
            self.body.edges += 1;
        }
        self.note_if(self.body.edges > EDGES, Kind::Limit(What::Edges));
        self.is_open = !is_last;
        self.body.lines.push(line);
        Ok(())
    }

    pub(super) fn assignment(&mut self, cursor: &mut Cursor<'t>) -> Result<(), Kind> {
        let (place, shape) = self.place(cursor)?;
        cursor.sign(b'=')?;
        if cursor.has_sign(b'&') {
            return self.borrow(cursor, place, shape);
        }
        if cursor.has_word(b"make") {
            return self.make(cursor, place, shape);
        }
        if cursor.has_word(b"call") {
            return self.call(cursor, place, shape);
        }
        let (operand, of) = self.operand(cursor)?;
        self.same(of, shape);
        self.point(cursor, Line::Assign { place, operand }, false)
    }

    fn borrow(&mut self, cursor: &mut Cursor<'t>, place: u32, shape: Shape) -> Result<(), Kind> {
        let region = self.region(cursor)?;
        let mutable = cursor.has_word(b"mut");
        let (borrowed, of) = self.place(cursor)?;
        if shape != NONE && of != NONE {
            let is_same = self.body.shapes.form(shape) == Form::Reference { mutable }
                && self.body.shapes.parts(shape)[0] == of;
            self.note_if(!is_same, Kind::Shape);
        }
        let region = region as u16;
        self.point(cursor, Line::Borrow { place, region, borrowed }, false)
    }

    fn make(&mut self, cursor: &mut Cursor<'t>, place: u32, shape: Shape) -> Result<(), Kind> {
        let made = self.written(cursor)?;
        self.same(made.shape, shape);
        let first = self.body.operands.len() as u32;
        let width = match made.shape {
            NONE => None,
            made => self.body.shapes.width(made),
        };
        self.note_if(made.shape != NONE && width.is_none(), Kind::Shape);
        cursor.sign(b'(')?;
        let mut count = 0;
        if !cursor.has_sign(b')') {
            loop {
                let (operand, of) = self.operand(cursor)?;
                self.body.operands.push(operand);
                if width.is_some_and(|width| count < width) {
                    let field = self.body.shapes.part(made.shape, count);
                    self.same(of, field);
                    self.note_if(self.body.shapes.nodes(field) > NODES, Kind::TypeSize);
                }
                count += 1;
                if !cursor.has_sign(b',') {
                    break;
                }
            }
            cursor.sign(b')')?;
        }
        self.note_if(width.is_some_and(|width| count != width), Kind::Shape);
        let number = self.body.makes.len() as u32;
        let operands = (first, self.body.operands.len() as u32);
        self.body.makes.push(Make { place, made, operands });
        self.point(cursor, Line::Make(number), false)
    }

    fn call(&mut self, cursor: &mut Cursor<'t>, place: u32, shape: Shape) -> Result<(), Kind> {
        let operands = self.body.operands.len() as u32;
        let types = self.body.types.len() as u32;
        let pairs = self.body.pairs.len() as u32;
        cursor.skip_blanks();
        if cursor.word().is_empty() {
            return Err(Kind::Syntax);
        }
        cursor.sign(b'(')?;
        if !cursor.has_sign(b')') {
            self.typed_operand(cursor)?;
            while cursor.has_sign(b',') {
                self.typed_operand(cursor)?;
            }
            cursor.sign(b')')?;
        }
        cursor.sign(b':')?;
        let result = self.written(cursor)?;
        self.same(result.shape, shape);
        if cursor.has_word(b"where") {
            self.clause(cursor)?;
            while cursor.has_sign(b',') {
                self.clause(cursor)?;
            }
        }
        self.targets(cursor)?;
        let number = self.body.calls.len() as u32;
        self.body.calls.push(Call {
            place,
            result,
            operands: (operands, self.body.operands.len() as u32),
            types,
            pairs: (pairs, self.body.pairs.len() as u32),
        });
        self.point(cursor, Line::Call(number), true)
    }

    fn typed_operand(&mut self, cursor: &mut Cursor<'t>) -> Result<(), Kind> {
        let (operand, of) = self.operand(cursor)?;
        cursor.sign(b':')?;
        let typed = self.written(cursor)?;
        self.same(of, typed.shape);
        self.body.operands.push(operand);
        self.body.types.push(typed);
        Ok(())
    }

    fn clause(&mut self, cursor: &mut Cursor<'t>) -> Result<(), Kind> {
        let sup = self.region(cursor)?;
        cursor.sign(b':')?;
        let sub = self.region(cursor)?;
        self.body.pairs.push((sup, sub));
        Ok(())
    }

    pub(super) fn switch_line(&mut self, cursor: &mut Cursor<'t>) -> Result<(), Kind> {
        let (operand, of) = self.operand(cursor)?;
        self.same(of, INT);
        self.target(cursor)?;
        while !cursor.is_closed() {
            self.target(cursor)?;
        }
        self.point(cursor, Line::Switch { operand }, true)
    }

    pub(super) fn drop_line(&mut self, cursor: &mut Cursor<'t>) -> Result<(), Kind> {
        let (variable, _) = self.variable(cursor)?;
        self.targets(cursor)?;
        self.point(cursor, Line::Drop { variable }, true)
    }

    pub(super) fn mark_line(&mut self, cursor: &mut Cursor<'t>) -> Result<(), Kind> {
        let (variable, _) = self.variable(cursor)?;
        self.point(cursor, Line::Mark(variable), false)
    }
}
