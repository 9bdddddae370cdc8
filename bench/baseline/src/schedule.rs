//! Events of owners at work, and the reader of schedules, version 1.

use crate::text::{self, Cursor, Fault, Format, Kind};
use std::io::{self, Write};

/// One step of an owner, by its number.
#[derive(Clone, Copy)]
pub enum Event {
    Load(u16),
    /// The first owner takes from the box in which the second one tells it of growths.
    Take(u16, u16),
    Owe(u16),
    Clear(u16),
    /// The first owner puts into the box in which it tells the second one of growths.
    Push(u16, u16),
    Leave(u16),
}

impl Event {
    /// Writes the line of the event.
    pub fn write(self, out: &mut impl Write) -> io::Result<()> {
        match self {
            Event::Load(i) => writeln!(out, "load {i}"),
            Event::Take(i, j) => writeln!(out, "take {i} {j}"),
            Event::Owe(i) => writeln!(out, "owe {i}"),
            Event::Clear(i) => writeln!(out, "clear {i}"),
            Event::Push(i, j) => writeln!(out, "push {i} {j}"),
            Event::Leave(i) => writeln!(out, "leave {i}"),
        }
    }
}

/// The events of the lines so far, of so many owners.
struct Schedule {
    owners: u16,
    events: Vec<Event>,
}

impl Schedule {
    fn owner(&self, number: u32) -> Result<u16, Kind> {
        if number < u32::from(self.owners) {
            Ok(number as u16)
        } else {
            Err(Kind::Range)
        }
    }

    /// The event of an owner alone.
    fn one(&self, cursor: &mut Cursor, event: fn(u16) -> Event) -> Result<Event, Kind> {
        let i = cursor.number()?;
        cursor.close()?;
        Ok(event(self.owner(i)?))
    }

    /// The event of two owners.
    fn two(&self, cursor: &mut Cursor, event: fn(u16, u16) -> Event) -> Result<Event, Kind> {
        let (i, j) = (cursor.number()?, cursor.number()?);
        cursor.close()?;
        Ok(event(self.owner(i)?, self.owner(j)?))
    }
}

impl<'t> Format<'t> for Schedule {
    const NAME: &'static [u8] = b"nll-schedule";

    fn line(&mut self, cursor: &mut Cursor<'t>) -> Result<(), Kind> {
        let event = match cursor.word() {
            b"load" => self.one(cursor, Event::Load),
            b"take" => self.two(cursor, Event::Take),
            b"owe" => self.one(cursor, Event::Owe),
            b"clear" => self.one(cursor, Event::Clear),
            b"push" => self.two(cursor, Event::Push),
            b"leave" => self.one(cursor, Event::Leave),
            _ => Err(Kind::Syntax),
        }?;
        self.events.push(event);
        Ok(())
    }

    fn is_ended(&self) -> bool {
        true
    }
}

/// The events of a schedule of so many owners that ends with a line feed.
pub fn read(text: &[u8], owners: u16) -> Result<Vec<Event>, Fault> {
    let mut schedule = Schedule { owners, events: Vec::new() };
    text::read(text, &mut schedule)?;
    Ok(schedule.events)
}
