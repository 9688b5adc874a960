//! A plant from the files that a person names: text, or the bytes of the paper, in one file or in a table's and one or
//! two of trees.
use crate::bytes::{self, Bytes, Misshapen, Part};
use crate::certificate;
use crate::faults;
use crate::files::{self, Trouble, INPUT_MOST};
use crate::plant::{At, Fault, Place, Plant};
use crate::text::{self, Text};
use pensummer::{Refusal, Sizes};
use std::rc::Rc;

/// A plant as it was given.
pub struct Input {
    pub bytes: Bytes,
    /// The plant that the bytes are of, or the first byte that is of another shape.
    plant: Result<Plant, Misshapen>,
}

/// A plant that is refused: why, and where, if that is known.
pub struct Refused {
    pub refusal: Refusal,
    pub fault: Option<Fault>,
}

/// Why there is no input.
pub enum Unread {
    Trouble(Trouble),
    Fault(Fault),
}

/// A file that a person wrote, or a program for one; no such file is longer than `INPUT_MOST` bytes.
pub fn read_text(name: &str) -> Result<Text, Unread> {
    let bytes = files::read(name, INPUT_MOST).map_err(Unread::Trouble)?;
    let file: Rc<str> = name.into();
    if bytes.len() > INPUT_MOST {
        let place = Place { file, at: At::Byte(INPUT_MOST) };
        return Err(Unread::Fault(Fault {
            place,
            reason: format!("this file goes on after {INPUT_MOST} bytes, and none that is meant does"),
        }));
    }
    Ok(Text { file, bytes })
}

impl Input {
    /// Reads one to three files.
    pub fn read(names: &[String]) -> Result<Input, Unread> {
        let texts = names.iter().map(|name| read_text(name)).collect::<Result<Vec<Text>, Unread>>()?;
        let fault = |text: &Text, reason: String| {
            let place = Place { file: text.file.clone(), at: At::Byte(0) };
            Err(Unread::Fault(Fault { place, reason }))
        };
        if let Some(text) = texts.iter().find(|text| certificate::begins(&text.bytes)) {
            return fault(text, "this begins as a certificate does, and a plant is wanted here".into());
        }
        let (binary, written): (Vec<&Text>, Vec<&Text>) = texts.iter().partition(|text| bytes::begins(&text.bytes));
        match (binary.first(), written.first()) {
            (None, _) => text::read(&texts).map(Input::of).map_err(Unread::Fault),
            (Some(_), None) => Ok(Input::of_bytes(&texts)),
            (Some(bytes), Some(text)) => fault(bytes, format!("these are bytes and {} is text; a plant is all of one kind", text.file)),
        }
    }

    pub fn of(plant: Plant) -> Input {
        Input { bytes: Bytes::from(&plant), plant: Ok(plant) }
    }

    /// Of one to three files of bytes.
    fn of_bytes(files: &[Text]) -> Input {
        let (first, last) = (&files[0], &files[files.len() - 1]);
        let bytes = match files {
            [all] => Bytes::split(&all.bytes),
            [table, trees] => Bytes { table: table.bytes.clone(), ..Bytes::split_trees(&trees.bytes) },
            _ => Bytes { table: first.bytes.clone(), recorded: files[1].bytes.clone(), found: last.bytes.clone() },
        };
        let recorded_at = if files.len() == 1 { bytes.table.len() } else { 0 };
        let found_at = if files.len() == 3 { 0 } else { recorded_at + bytes.recorded.len() };
        let second = &files[usize::from(files.len() > 1)];
        let plant = bytes::read(
            Part { file: &first.file, bytes: &bytes.table, offset: 0 },
            Part { file: &second.file, bytes: &bytes.recorded, offset: recorded_at },
            Part { file: &last.file, bytes: &bytes.found, offset: found_at },
        );
        Input { bytes, plant }
    }

    /// The plant, or the fault of bytes that are none.
    pub fn plant(&self) -> Result<&Plant, &Fault> {
        self.plant.as_ref().map_err(|shape| &shape.fault)
    }

    /// A refusal of this plant with its place.
    pub fn refused(&self, refusal: Refusal) -> Refused {
        let fault = match &self.plant {
            Ok(plant) => faults::fault(plant, refusal.number()),
            Err(shape) if shape.item == refusal.number() => Some(shape.fault.clone()),
            // an earlier part is refused for another reason
            Err(shape) => shape.before.as_ref().and_then(|before| faults::fault(before, refusal.number())),
        };
        Refused { refusal, fault }
    }

    /// How much the library wants to be lent, if it accepts the table and both trees: this tests the items 1 to 12, 25
    /// and 26, and nothing else.
    pub fn sizes(&self) -> Result<Sizes, Refused> {
        pensummer::sizes(self.bytes.inputs()).map_err(|refusal| self.refused(refusal))
    }

    /// The plant, if the library accepts the table and both trees.
    pub fn accepted(&self) -> Result<&Plant, Refused> {
        self.sizes()?;
        match &self.plant {
            Ok(plant) => Ok(plant),
            Err(_) => unreachable!("bytes of another shape are refused"),
        }
    }
}
