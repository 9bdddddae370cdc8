//! Types in a line: each is put in the table of shapes while it is read, its regions in a list.

use super::{Parameters, Reader};
use crate::shapes::{Form, Shape, Typed, INT, NODES, NONE, STATIC_ITEM, TYPE_ITEM};
use crate::text::{Cursor, Kind};

/// A type that is begun but not yet complete, while the text of one is read.
pub enum Begun {
    Reference { mutable: bool },
    /// Its parts begin here among those that are complete.
    Tuple { first: u32 },
    /// The arguments of a function, which begin here among those that are complete.
    Inputs { first: u32 },
    /// A function whose result follows; its arguments begin here.
    Output { first: u32 },
    Named { name: Name, first: u32, arguments: u32, fits: bool },
}

#[derive(Clone, Copy)]
pub enum Name {
    Unknown,
    Parameter(u32),
    Struct(u32),
}

impl<'t> Reader<'t> {
    /// A type of the body that stands here.
    pub fn written(&mut self, cursor: &mut Cursor<'t>) -> Result<Typed, Kind> {
        self.typed(cursor, None)
    }

    /// A type that stands here, in the body or in a field of a struct with these parameters.
    pub(super) fn typed(
        &mut self,
        cursor: &mut Cursor<'t>,
        own: Option<&Parameters<'t>>,
    ) -> Result<Typed, Kind> {
        let list = if own.is_some() { &self.body.shapes.items } else { &self.body.items };
        let first = list.len() as u32;
        let mut shape = self.leaf(cursor, own)?;
        loop {
            if let Some(complete) = shape {
                self.complete.push(complete);
                if !self.complete_outer(cursor, own)? {
                    break;
                }
            }
            shape = self.leaf(cursor, own)?;
        }
        let shape = self.complete.pop().unwrap_or(NONE);
        let is_large = shape != NONE && self.body.shapes.nodes(shape) > NODES;
        self.note_if(is_large, Kind::TypeSize);
        Ok(Typed { shape, first })
    }

    /// Reads what a type begins with; the shape, where it is all of the type.
    fn leaf(
        &mut self,
        cursor: &mut Cursor<'t>,
        own: Option<&Parameters<'t>>,
    ) -> Result<Option<Shape>, Kind> {
        if cursor.has_sign(b'&') {
            self.item(cursor, own)?;
            let mutable = cursor.has_word(b"mut");
            self.begun.push(Begun::Reference { mutable });
            return Ok(None);
        }
        if cursor.has_sign(b'(') {
            if cursor.has_sign(b')') {
                return Ok(Some(self.body.shapes.add(Form::Tuple, &[])));
            }
            self.begun.push(Begun::Tuple { first: self.complete.len() as u32 });
            return Ok(None);
        }
        let word = cursor.word();
        if word == b"int" {
            return Ok(Some(INT));
        }
        if self.is_second && word == b"fn" {
            self.function(cursor)?;
            return Ok(None);
        }
        if !word.first().is_some_and(u8::is_ascii_uppercase) {
            return Err(Kind::Syntax);
        }
        let name = self.name_of(word, own);
        let first = self.complete.len() as u32;
        if let Name::Parameter(k) = name {
            self.body.shapes.items.push(TYPE_ITEM | k);
        }
        if cursor.has_sign(b'<') {
            self.begun.push(Begun::Named { name, first, arguments: 0, fits: true });
            return if self.region_arguments(cursor, own)? { self.end_named() } else { Ok(None) };
        }
        Ok(Some(self.named(name, 0, true, first)))
    }

    /// Reads what the type of a function has before its first argument or its result.
    fn function(&mut self, cursor: &mut Cursor<'t>) -> Result<(), Kind> {
        let first = self.complete.len() as u32;
        cursor.sign(b'(')?;
        if !cursor.has_sign(b')') {
            self.begun.push(Begun::Inputs { first });
            return Ok(());
        }
        self.begun.push(Begun::Output { first });
        cursor.arrow()
    }

    fn name_of(&mut self, word: &[u8], own: Option<&Parameters<'t>>) -> Name {
        let parameter = own.and_then(|own| own.types.get(word));
        if let Some(k) = parameter {
            return Name::Parameter(k);
        }
        let found = self.struct_names.get(word);
        self.note_if(found.is_none(), Kind::Unknown);
        found.map_or(Name::Unknown, Name::Struct)
    }

    /// Reads the region of a reference or of an argument.
    fn item(&mut self, cursor: &mut Cursor<'t>, own: Option<&Parameters<'t>>) -> Result<(), Kind> {
        let Some(own) = own else {
            let region = self.region(cursor)?;
            self.body.items.push(region);
            return Ok(());
        };
        let name = cursor.region()?;
        let found = if name == b"static" { Some(STATIC_ITEM) } else { own.regions.get(name) };
        self.note_if(found.is_none(), Kind::Unknown);
        self.body.shapes.items.push(found.unwrap_or(STATIC_ITEM));
        Ok(())
    }

    /// Counts an argument of the use that was begun last.
    fn count_argument(&mut self, is_region: bool) {
        let Some(Begun::Named { name, arguments, fits, .. }) = self.begun.last_mut() else {
            return;
        };
        if let Name::Struct(s) = *name {
            let wanted = self.body.shapes.structs[s as usize].parameters.get(*arguments as usize);
            *fits &= wanted.is_some_and(|parameter| parameter.is_region == is_region);
        }
        *arguments += 1;
    }

    /// Reads arguments while they are regions; whether the last argument was read.
    fn region_arguments(
        &mut self,
        cursor: &mut Cursor<'t>,
        own: Option<&Parameters<'t>>,
    ) -> Result<bool, Kind> {
        loop {
            cursor.skip_blanks();
            if cursor.peek() != b'\'' {
                return Ok(false);
            }
            self.item(cursor, own)?;
            self.count_argument(true);
            if cursor.has_sign(b'>') {
                return Ok(true);
            }
            cursor.sign(b',')?;
        }
    }

    /// The shape of the use that was begun last and is now complete.
    fn end_named(&mut self) -> Result<Option<Shape>, Kind> {
        match self.begun.pop() {
            Some(Begun::Named { name, first, arguments, fits }) => {
                Ok(Some(self.named(name, arguments, fits, first)))
            }
            _ => Err(Kind::Syntax),
        }
    }

    /// The shape of a use of a name, whose type arguments are complete from `first` on.
    fn named(&mut self, name: Name, arguments: u32, fits: bool, first: u32) -> Shape {
        let (form, wanted) = match name {
            Name::Unknown => {
                self.complete.truncate(first as usize);
                return NONE;
            }
            Name::Parameter(k) => (Form::Parameter(k), 0),
            Name::Struct(s) => {
                (Form::Struct(s), self.body.shapes.structs[s as usize].parameters.len() as u32)
            }
        };
        if !fits || arguments != wanted {
            self.note(Kind::Shape);
            self.complete.truncate(first as usize);
            return NONE;
        }
        self.over(form, first as usize)
    }

    /// The shape of this form over the parts that are complete from `first` on; none is made where
    /// a fault was noted that is told before those of shapes.
    fn over(&mut self, form: Form, first: usize) -> Shape {
        let parts = &self.complete[first..];
        let is_faulty = self.fault.is_some_and(|fault| fault < Kind::Shape);
        let shape = match is_faulty || parts.contains(&NONE) {
            true => NONE,
            false => self.body.shapes.add(form, parts),
        };
        self.complete.truncate(first);
        shape
    }

    /// A part is complete: completes what it is the last part of; whether a further type follows.
    fn complete_outer(
        &mut self,
        cursor: &mut Cursor<'t>,
        own: Option<&Parameters<'t>>,
    ) -> Result<bool, Kind> {
        while let Some(outer) = self.begun.last() {
            let shape = match *outer {
                Begun::Reference { mutable } => {
                    self.over(Form::Reference { mutable }, self.complete.len() - 1)
                }
                Begun::Tuple { first } => {
                    if cursor.has_sign(b',') {
                        return Ok(true);
                    }
                    cursor.sign(b')')?;
                    self.over(Form::Tuple, first as usize)
                }
                Begun::Inputs { first } => {
                    if cursor.has_sign(b',') {
                        return Ok(true);
                    }
                    cursor.sign(b')')?;
                    self.begun.pop();
                    self.begun.push(Begun::Output { first });
                    cursor.arrow()?;
                    return Ok(true);
                }
                Begun::Output { first } => self.over(Form::Function, first as usize),
                Begun::Named { .. } => {
                    self.count_argument(false);
                    let is_last = cursor.has_sign(b'>');
                    if !is_last {
                        cursor.sign(b',')?;
                        if !self.region_arguments(cursor, own)? {
                            return Ok(true);
                        }
                    }
                    let shape = self.end_named()?.unwrap_or(NONE);
                    self.complete.push(shape);
                    continue;
                }
            };
            self.begun.pop();
            self.complete.push(shape);
        }
        Ok(false)
    }
}
