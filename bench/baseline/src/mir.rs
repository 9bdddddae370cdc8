//! The reader of MIR texts, versions 1 and 2: one pass over the bytes.
//!
//! A line is judged while it is read: `note` keeps the first kind of fault in the order of `Kind`,
//! and a line that turns out to have no form is `Syntax` whatever was noted.

mod lines;
mod types;

use crate::body::{Body, Line};
use crate::shapes::{Parameter, Shape, Shapes, Sign, Struct};
use crate::tables::{NameMap, Names};
use crate::text::{Cursor, Format, Kind, What, REGIONS, UNIVERSALS};
use types::Begun;

const VARIABLES: usize = 65_536;
const STRUCTS: usize = 1_024;

/// The groups of lines in their order.
const UNIVERSAL_GROUP: u8 = 1;
const OUTLIVES_GROUP: u8 = 2;
const REGION_GROUP: u8 = 3;
const ASSERT_GROUP: u8 = 4;
const STRUCT_GROUP: u8 = 5;
const LET_GROUP: u8 = 6;
const BLOCKS_GROUP: u8 = 7;
const BODY_GROUP: u8 = 8;
const END_GROUP: u8 = 9;

/// The parameters of the struct whose line is read, by name.
#[derive(Default)]
struct Parameters<'t> {
    regions: NameMap<'t>,
    types: NameMap<'t>,
    list: Vec<Parameter>,
}

/// What the lines up to here said.
pub struct Reader<'t> {
    body: Body<'t>,
    struct_names: NameMap<'t>,
    /// Whether the text is of version 2, which has types of functions, the sign `-` and `assert`
    /// lines.
    is_second: bool,
    reached: u8,
    /// The number of the `blocks` line, and whether a terminator is owed.
    wanted: u32,
    is_open: bool,
    /// The first kind of fault of this line.
    fault: Option<Kind>,
    /// For each block the last line whose target it was.
    seen: Vec<u32>,
    begun: Vec<Begun>,
    complete: Vec<Shape>,
}

impl<'t> Reader<'t> {
    pub fn new() -> Reader<'t> {
        let mut names = Names::default();
        names.declare(b"static");
        let body = Body {
            names,
            universals: 1,
            outlives: vec![[0; 4]],
            asserts: Vec::new(),
            shapes: Shapes::new(),
            variables: Vec::new(),
            items: Vec::new(),
            places: Vec::new(),
            projections: Vec::new(),
            lines: Vec::new(),
            makes: Vec::new(),
            calls: Vec::new(),
            operands: Vec::new(),
            types: Vec::new(),
            pairs: Vec::new(),
            targets: Vec::new(),
            target_ends: Vec::new(),
            blocks: Vec::new(),
            edges: 0,
        };
        Reader {
            body,
            struct_names: NameMap::default(),
            is_second: false,
            reached: 0,
            wanted: 0,
            is_open: false,
            fault: None,
            seen: Vec::new(),
            begun: Vec::new(),
            complete: Vec::new(),
        }
    }

    pub fn finish(self) -> Body<'t> {
        self.body
    }

    /// Notes a kind of fault, unless one that is told before it is noted.
    fn note(&mut self, kind: Kind) {
        self.fault = Some(self.fault.map_or(kind, |fault| fault.min(kind)));
    }

    fn note_if(&mut self, faulty: bool, kind: Kind) {
        if faulty {
            self.note(kind);
        }
    }

    /// Enters a group of lines outside blocks.
    fn enter(&mut self, group: u8) -> Result<(), Kind> {
        let repeats = group != BLOCKS_GROUP && group != END_GROUP;
        let follows = self.reached < group || (self.reached == group && repeats);
        let owes_let = group >= BLOCKS_GROUP && self.body.variables.is_empty();
        let owes_blocks = group > BLOCKS_GROUP && self.reached < BLOCKS_GROUP;
        if !follows || owes_let || owes_blocks || self.is_open {
            return Err(Kind::Syntax);
        }
        self.reached = group;
        Ok(())
    }

    // Regions

    fn declaring_line(&mut self, cursor: &mut Cursor<'t>, group: u8) -> Result<(), Kind> {
        let name = cursor.region()?;
        cursor.close()?;
        self.enter(group)?;
        let full = self.body.names.list.len() >= REGIONS;
        if !self.body.names.declare(name) {
            return Err(Kind::Duplicate);
        }
        if group == UNIVERSAL_GROUP {
            if self.body.universals >= UNIVERSALS {
                return Err(Kind::Limit(What::Universals));
            }
            self.body.universals += 1;
            self.body.outlives.push([0; 4]);
        }
        if full { Err(Kind::Limit(What::Regions)) } else { Ok(()) }
    }

    fn outlives_line(&mut self, cursor: &mut Cursor<'t>) -> Result<(), Kind> {
        let (sup, sub) = (cursor.region()?, cursor.region()?);
        cursor.close()?;
        self.enter(OUTLIVES_GROUP)?;
        let (sup, sub) = (self.universal(sup)?, self.universal(sub)?);
        self.body.outlives[sup][sub / 64] |= 1 << (sub % 64);
        Ok(())
    }

    /// The number of a universal region.
    fn universal(&mut self, name: &[u8]) -> Result<usize, Kind> {
        match self.body.names.number_of(name) {
            Some(number) if number < self.body.universals => Ok(number as usize),
            _ => Err(Kind::Unknown),
        }
    }

    /// The number of a region of the body that stands here; 0 where there is none of this name.
    fn region(&mut self, cursor: &mut Cursor<'t>) -> Result<u32, Kind> {
        let name = cursor.region()?;
        let found = self.body.names.number_of(name);
        self.note_if(found.is_none(), Kind::Unknown);
        Ok(found.unwrap_or(0))
    }

    fn assert_line(&mut self, cursor: &mut Cursor<'t>) -> Result<(), Kind> {
        if !self.is_second {
            return Err(Kind::Syntax);
        }
        let sup = self.region(cursor)?;
        cursor.sign(b':')?;
        let sub = self.region(cursor)?;
        cursor.close()?;
        self.enter(ASSERT_GROUP)?;
        self.body.asserts.push((sup, sub));
        Ok(())
    }

    // Structs and variables

    fn struct_line(&mut self, cursor: &mut Cursor<'t>) -> Result<(), Kind> {
        self.enter(STRUCT_GROUP)?;
        cursor.skip_blanks();
        let name = cursor.word();
        if !name.first().is_some_and(u8::is_ascii_uppercase) {
            return Err(Kind::Syntax);
        }
        self.note_if(self.struct_names.get(name).is_some(), Kind::Duplicate);
        let own = self.parameters(cursor, name)?;
        let drop = cursor.has_word(b"drop");
        cursor.sign(b'(')?;
        let mut fields = Vec::new();
        if !cursor.has_sign(b')') {
            fields.push(self.typed(cursor, Some(&own))?);
            while cursor.has_sign(b',') {
                fields.push(self.typed(cursor, Some(&own))?);
            }
            cursor.sign(b')')?;
        }
        cursor.close()?;
        let number = self.body.shapes.structs.len();
        self.note_if(number >= STRUCTS, Kind::Limit(What::Structs));
        if self.fault.is_none() {
            let sources = self.body.shapes.sources_of(&own.list, drop, &fields);
            self.struct_names.insert(name, number as u32);
            self.body.shapes.structs.push(Struct::new(own.list, fields, sources));
        }
        Ok(())
    }

    /// The parameters of a struct of this name.
    fn parameters(
        &mut self,
        cursor: &mut Cursor<'t>,
        name: &[u8],
    ) -> Result<Parameters<'t>, Kind> {
        let mut own = Parameters::default();
        if !cursor.has_sign(b'<') {
            return Ok(own);
        }
        loop {
            self.parameter(cursor, name, &mut own)?;
            if cursor.has_sign(b'>') {
                return Ok(own);
            }
            cursor.sign(b',')?;
        }
    }

    fn parameter(
        &mut self,
        cursor: &mut Cursor<'t>,
        struct_name: &[u8],
        own: &mut Parameters<'t>,
    ) -> Result<(), Kind> {
        cursor.skip_blanks();
        let is_region = cursor.peek() == b'\'';
        let is_new = if is_region {
            let name = cursor.region()?;
            let number = own.regions.len() as u32;
            own.regions.insert(name, number) && name != b"static"
        } else {
            let name = cursor.word();
            if !name.first().is_some_and(u8::is_ascii_uppercase) {
                return Err(Kind::Syntax);
            }
            let number = own.types.len() as u32;
            let is_new = own.types.insert(name, number) && name != struct_name;
            is_new && self.struct_names.get(name).is_none()
        };
        self.note_if(!is_new, Kind::Duplicate);
        let sign = self.parameter_sign(cursor)?;
        let marked = cursor.has_sign(b'?');
        own.list.push(Parameter { is_region, sign, marked });
        Ok(())
    }

    fn parameter_sign(&self, cursor: &mut Cursor<'t>) -> Result<Sign, Kind> {
        if cursor.has_sign(b'+') {
            return Ok(Sign::Covariant);
        }
        if self.is_second && cursor.has_dash() {
            return Ok(Sign::Contravariant);
        }
        cursor.sign(b'=')?;
        Ok(Sign::Invariant)
    }

    fn let_line(&mut self, cursor: &mut Cursor<'t>) -> Result<(), Kind> {
        self.enter(LET_GROUP)?;
        let number = cursor.numbered(b"_")?;
        cursor.sign(b':')?;
        let typed = self.written(cursor)?;
        cursor.close()?;
        let count = self.body.variables.len();
        self.note_if(number as usize != count, Kind::Range);
        self.note_if(count >= VARIABLES, Kind::Limit(What::Variables));
        self.body.variables.push(typed);
        Ok(())
    }

    fn form(&mut self, cursor: &mut Cursor<'t>) -> Result<(), Kind> {
        if cursor.peek() == b'_' {
            return self.assignment(cursor);
        }
        match cursor.word() {
            b"read" => {
                let (place, _) = self.place(cursor)?;
                self.point(cursor, Line::Read(place), false)
            }
            b"live" | b"dead" => self.mark_line(cursor),
            b"nop" => self.point(cursor, Line::Nop, false),
            b"goto" => {
                self.target(cursor)?;
                self.point(cursor, Line::Goto, true)
            }
            b"switch" => self.switch_line(cursor),
            b"drop" => self.drop_line(cursor),
            b"return" => self.point(cursor, Line::Return, true),
            b"stop" => self.point(cursor, Line::Stop, true),
            b"block" => self.block_line(cursor),
            b"let" => self.let_line(cursor),
            b"region" => self.declaring_line(cursor, REGION_GROUP),
            b"struct" => self.struct_line(cursor),
            b"assert" => self.assert_line(cursor),
            b"universal" => self.declaring_line(cursor, UNIVERSAL_GROUP),
            b"outlives" => self.outlives_line(cursor),
            b"blocks" => self.blocks_line(cursor),
            b"end" => self.end_line(cursor),
            _ => Err(Kind::Syntax),
        }
    }
}

impl<'t> Format<'t> for Reader<'t> {
    const NAME: &'static [u8] = b"nll-mir";
    const VERSIONS: &'static [&'static [u8]] = &[b"1", b"2"];

    fn begin(&mut self, version: usize) {
        self.is_second = version == 1;
    }

    fn line(&mut self, cursor: &mut Cursor<'t>) -> Result<(), Kind> {
        self.form(cursor)?;
        self.fault.map_or(Ok(()), Err)
    }

    fn is_ended(&self) -> bool {
        self.reached == END_GROUP
    }
}
