//! How the value of a field is said: as `show` prints it, where that prints it.
use crate::show::field::Field;
use crate::show::text::{quoted_bytes, quoted_units};
use crate::show::{drive_type, hot_key, names, show_command};

/// The kinds of values.
#[derive(Clone, Copy)]
pub enum Form {
    Number,
    Signed,
    /// A number that a person reads in hex.
    Hex,
    LinkBits,
    AttributeBits,
    InfoBits,
    NetworkBits,
    Time,
    /// ShowCommand.
    Command,
    /// HotKey.
    Held,
    Drive,
    /// One identifier, or several end to end.
    Identifiers,
    /// The signature of a block.
    Stamp,
    /// A text up to its zero, with so many bytes to a character.
    Words(usize),
    /// Bytes that nobody decodes.
    Raw,
}

impl Form {
    /// The value of a field with these bytes.
    pub fn said(self, bytes: &[u8]) -> String {
        let long = bytes.iter().rev().take(8).fold(0, |number, &byte| number << 8 | u64::from(byte));
        let number = long as u32;
        let field = match self {
            Form::Number => Field::number("", number),
            Form::Signed => Field::number("", number as i32),
            Form::Hex => Field::hex("", number),
            Form::LinkBits => Field::bits("", number, &names::link_flags(number)),
            Form::AttributeBits => Field::bits("", number, &names::attributes(number)),
            Form::InfoBits => Field::bits("", number, &names::info_flags(number)),
            Form::NetworkBits => Field::bits("", number, &names::network_flags(number)),
            Form::Time => Field::time("", long),
            Form::Command => show_command(number),
            Form::Held => hot_key(number as u16),
            Form::Drive => drive_type(number),
            Form::Identifiers => {
                return bytes.chunks(16).map(names::identifier).collect::<Vec<String>>().join(" ");
            }
            Form::Stamp => return format!("{:08X} {}", number, names::block(number).unwrap_or("unknown block")),
            Form::Words(1) => return quoted_bytes(bytes),
            Form::Words(_) => return quoted_units(bytes),
            Form::Raw => return super::part::bytes(bytes.len()),
        };
        field.line().to_string()
    }
}
