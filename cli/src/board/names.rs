//! The names of the inputs, and the places of records in words.

use super::origins::Place;
use crate::wire::ROOM;
use crate::words::printable;

#[derive(Default)]
pub struct Names {
    /// The name of the stored board.
    pub stored: String,
    pub inputs: Vec<String>,
}

impl Names {
    /// Returns the file of a place and the byte of the file at which the record begins.
    pub fn file_and_byte(&self, place: Place) -> (&str, u64) {
        match place {
            Place::Stored { slot } => (&self.stored, (ROOM * (slot - 1)) as u64),
            Place::Input { number, byte } => (&self.inputs[number], byte),
        }
    }

    /// Returns a place in words.
    pub fn place(&self, place: Place) -> String {
        match (place, self.file_and_byte(place)) {
            (Place::Stored { slot }, (file, _)) => format!("{}, slot {slot}", printable(file)),
            (Place::Input { .. }, (file, byte)) => format!("{}, byte {byte}", printable(file)),
        }
    }
}

#[cfg(test)]
mod tests {
    use super::*;

    #[test]
    fn places_have_their_file() {
        let names = Names { stored: "old.board".into(), inputs: vec!["a\n\x1b[0m".into(), "b c".into()] };
        let [slot, first, second] = [
            Place::Stored { slot: 3 },
            Place::Input { number: 0, byte: 16 },
            Place::Input { number: 1, byte: 1 << 40 },
        ];
        assert_eq!(names.place(slot), "old.board, slot 3");
        assert_eq!(names.place(first), "a\\n\\u{1b}[0m, byte 16");
        assert_eq!(names.place(second), "b c, byte 1099511627776");
        assert_eq!(names.file_and_byte(slot), ("old.board", 1056));
        assert_eq!(names.file_and_byte(first), ("a\n\x1b[0m", 16));
    }
}
