//! The property store of a shortcut: storages, and the values in each (FORMAT: Property store).
use crate::boundary;
use crate::refusal::{answer, Refusal};
use crate::{Profile, LONGEST};

/// The numbers of a row of the boundary's list (FORMAT: Store list).
pub(crate) const ROW: usize = 6;

/// The fewest bytes that a row stands for, those of a value.
const VALUE: usize = 9;

/// The longest store: header, terminal and the head of its block take the other 88 bytes of a shortcut.
const MOST: usize = LONGEST - 88;

/// The format under which values have names, {D5CDD505-2E9C-101B-9397-08002B2CF9AE}; under others they have numbers.
pub const NAMED: [u8; 16] =
    [0x05, 0xD5, 0xCD, 0xD5, 0x9C, 0x2E, 0x1B, 0x10, 0x93, 0x97, 0x08, 0x00, 0x2B, 0x2C, 0xF9, 0xAE];

/// A property store. Names and raw bytes are parts of the caller's own slices.
///
/// ```
#[doc = include_str!("../examples/store.rs")]
/// ```
#[derive(Clone, Debug, Default, PartialEq, Eq, Hash)]
pub struct Store<'a> {
    /// The storages, in order.
    pub storages: Vec<Storage<'a>>,
}

/// A storage of a store.
#[derive(Clone, Debug, PartialEq, Eq, Hash)]
pub struct Storage<'a> {
    /// The format identifier.
    pub identifier: [u8; 16],
    /// The values, in order.
    pub values: Vec<Value<'a>>,
}

/// A value of a storage.
#[derive(Clone, Copy, Debug, PartialEq, Eq, Hash)]
pub struct Value<'a> {
    /// Its number or its name.
    pub name: ValueName<'a>,
    /// Its raw bytes; [`Content`](crate::show::property::Content) tells what they say.
    pub raw: &'a [u8],
}

/// What a value is known by.
#[derive(Clone, Copy, Debug, PartialEq, Eq, Hash)]
pub enum ValueName<'a> {
    /// A number, under every format but [`NAMED`].
    Number(u32),
    /// A name, under [`NAMED`]: mostly a text of 16-bit units with its terminator.
    Bytes(&'a [u8]),
}

impl<'a> Store<'a> {
    /// The store of a shortcut; one without the block A0000009 has no storages.
    ///
    /// # Errors
    ///
    /// As [`check`](crate::check).
    pub fn read(shortcut: &'a [u8]) -> Result<Store<'a>, Refusal> {
        Store::read_under(shortcut, Profile::Strict)
    }

    /// The same under a profile.
    ///
    /// # Errors
    ///
    /// As [`check_under`](crate::check_under).
    pub fn read_under(shortcut: &'a [u8], profile: Profile) -> Result<Store<'a>, Refusal> {
        let mut store = Store::default();
        rows(shortcut, profile)?.chunks_exact(ROW).for_each(|row| store.add(row, shortcut));
        Ok(store)
    }

    fn add(&mut self, row: &[u64], shortcut: &'a [u8]) {
        let part = |at: usize| shortcut.get(row[at] as usize..(row[at] + row[at + 1]) as usize).unwrap_or_default();
        let name = match row[0] {
            0 => return self.storages.push(Storage::new(part(4).try_into().unwrap_or_default())),
            1 => ValueName::Number(row[1] as u32),
            _ => ValueName::Bytes(part(2)),
        };
        if let Some(storage) = self.storages.last_mut() {
            storage.values.push(Value { name, raw: part(4) });
        }
    }

    /// The same with a storage after the others.
    pub fn with(mut self, storage: Storage<'a>) -> Store<'a> {
        self.storages.push(storage);
        self
    }

    /// Every value, with the format identifier of its storage.
    pub fn values(&self) -> impl Iterator<Item = (&[u8; 16], &Value<'a>)> {
        self.storages.iter().flat_map(|storage| storage.values.iter().map(move |value| (&storage.identifier, value)))
    }

    /// The first value of this format with this number or name.
    pub fn value(&self, identifier: &[u8; 16], name: ValueName) -> Option<&'a [u8]> {
        self.values().find(|(of, value)| *of == identifier && value.name == name).map(|(_, value)| value.raw)
    }

    /// The bytes of the store, without size and signature of a block (FORMAT: Store writing).
    ///
    /// # Errors
    ///
    /// [`Fault::Unwritable`](crate::Fault::Unwritable): a number under [`NAMED`], a name under another format, or more
    /// than 65,448 bytes.
    pub fn to_vec(&self) -> Result<Vec<u8>, Refusal> {
        let mut list = List::default();
        for storage in &self.storages {
            list.row(0, 0, b"", &storage.identifier);
            for value in &storage.values {
                match value.name {
                    ValueName::Number(number) => list.row(1, number, b"", value.raw),
                    ValueName::Bytes(name) => list.row(2, 0, name, value.raw),
                }
            }
        }
        let mut out = vec![0; MOST];
        let length = answer(boundary::store_write(&list.rows, &list.body, &mut out))?;
        out.truncate(length);
        Ok(out)
    }

    /// The same as a block A0000009, for [`Record::blocks`](crate::Record::blocks).
    ///
    /// # Errors
    ///
    /// As [`Store::to_vec`].
    pub fn to_block(&self) -> Result<Vec<u8>, Refusal> {
        let store = self.to_vec()?;
        let size = store.len() as u32 + 8;
        Ok([&size.to_le_bytes()[..], &0xA000_0009_u32.to_le_bytes(), &store].concat())
    }
}

impl<'a> Storage<'a> {
    /// A storage without values.
    pub fn new(identifier: [u8; 16]) -> Storage<'a> {
        Storage { identifier, values: Vec::new() }
    }

    /// The same with a value by number after the others.
    pub fn with_number(mut self, number: u32, raw: &'a [u8]) -> Storage<'a> {
        self.values.push(Value { name: ValueName::Number(number), raw });
        self
    }

    /// The same with a value by name after the others.
    pub fn with_name(mut self, name: &'a [u8], raw: &'a [u8]) -> Storage<'a> {
        self.values.push(Value { name: ValueName::Bytes(name), raw });
        self
    }
}

/// The rows of the boundary's list, end to end.
pub(crate) fn rows(shortcut: &[u8], profile: Profile) -> Result<Vec<u64>, Refusal> {
    let mut rows = vec![0; ROW * (shortcut.len().min(LONGEST) / VALUE)];
    let count = answer(boundary::store_list(shortcut, &mut rows, profile.number()))?;
    rows.truncate(ROW * count);
    Ok(rows)
}

/// Rows, and the bytes that their places lead to.
#[derive(Default)]
struct List {
    rows: Vec<u64>,
    body: Vec<u8>,
}

impl List {
    fn row(&mut self, kind: u64, number: u32, name: &[u8], raw: &[u8]) {
        self.rows.extend([kind, number.into()]);
        for bytes in [name, raw] {
            self.rows.extend([self.body.len() as u64, bytes.len() as u64]);
            self.body.extend(bytes);
        }
    }
}
