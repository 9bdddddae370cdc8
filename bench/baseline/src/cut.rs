//! Which owner has which region, and the reader of cut files, version 1.

use crate::text::{self, Cursor, Fault, Format, Kind};

/// An owner for each region.
pub struct Cut {
    pub owners: u16,
    list: Vec<u16>,
}

impl Cut {
    /// Deals regions in turns.
    pub fn round(regions: u32, owners: u16) -> Cut {
        let list = (0..regions).map(|region| (region % u32::from(owners)) as u16).collect();
        Cut { owners, list }
    }

    /// Deals regions in blocks of neighbours, as small as so many blocks allow.
    pub fn blocks(regions: u32, owners: u16) -> Cut {
        let size = regions.div_ceil(u32::from(owners));
        let list = (0..regions).map(|region| (region / size) as u16).collect();
        Cut { owners, list }
    }

    /// The owners that a list has for so many regions, or why it is refused.
    pub fn from_list(regions: u32, owners: u16, list: Vec<u16>) -> Result<Cut, String> {
        if list.len() != regions as usize {
            return Err("cut: length".to_string());
        }
        match list.iter().position(|&owner| owner >= owners) {
            Some(index) => Err(format!("cut: no such owner at {index}")),
            None => Ok(Cut { owners, list }),
        }
    }

    pub fn owner_of(&self, region: u32) -> u16 {
        self.list[region as usize]
    }
}

/// The numbers of the lines so far.
#[derive(Default)]
struct Listed(Vec<u16>);

impl<'t> Format<'t> for Listed {
    const NAME: &'static [u8] = b"nll-cut";

    fn line(&mut self, cursor: &mut Cursor<'t>) -> Result<(), Kind> {
        let owner = cursor.number()?;
        cursor.close()?;
        self.0.push(owner.try_into().map_err(|_| Kind::Range)?);
        Ok(())
    }

    fn is_ended(&self) -> bool {
        true
    }
}

/// The list of a cut file that ends with a line feed.
pub fn read(text: &[u8]) -> Result<Vec<u16>, Fault> {
    let mut listed = Listed::default();
    text::read(text, &mut listed)?;
    Ok(listed.0)
}
