//! The fields that stand at fixed offsets of their structure, by the names of MS-SHLLINK and, of a property store,
//! MS-PROPSTORE, with the rules by which reading can find them wrong.
use super::form::Form;
use super::part::{parts, Kind, Part};
use super::rule::{is_leftover, Rule, CLASS};
use super::Spot;
use std::fmt;
use std::ops::Range;

/// A field found wrong.
#[derive(Clone, Debug, PartialEq, Eq, Hash)]
#[non_exhaustive]
pub struct WrongField {
    /// The structure that it belongs to; for a section without one of its own name, its kind.
    pub structure: &'static str,
    /// Where that structure starts in the shortcut.
    pub start: usize,
    /// Its name in MS-SHLLINK or, of a property store, in MS-PROPSTORE.
    pub name: &'static str,
    /// Where its bytes stand in the shortcut, as far as they are there.
    pub place: Range<usize>,
    /// What it is and why that is wrong, as `is 0x1B, before the end of the head at 0x1C`.
    pub wrong: String,
}

/// Name, value and rule, as `DriveType is 0x7, more than 0x6`.
impl fmt::Display for WrongField {
    fn fmt(&self, f: &mut fmt::Formatter<'_>) -> fmt::Result {
        write!(f, "{} {}", self.name, self.wrong)
    }
}

/// Where a row's field exists.
#[derive(Clone, Copy)]
enum Where {
    Everywhere,
    /// In a head that is longer than the shortest of its kind.
    LongHead,
    /// In blocks with one of these signatures.
    In(&'static [u32]),
    /// Inside the size of its part: the zero size that ends a store or a storage is a part without further fields.
    Within,
    /// The same in a value that has a name.
    Named,
    /// The same in a value that has a number.
    Numbered,
}

use Form::{
    AttributeBits, Command, Drive, Held, Hex, Identifiers, InfoBits, LinkBits, NetworkBits, Number, Raw, Signed, Stamp,
    Time, Words,
};
use Rule::{
    Apart, AtLeast, AtMost, Attributes, Bytes, Clear, Ended, Fits, Head, HotKey, Is, Kept, Label, Name, Once, Present,
    Signature, Structure, Text, Walked,
};
use Where::{Everywhere, In, LongHead, Named, Numbered, Within};

/// A field: structure, offset, width, name, where it exists, its rules in the order of the tests, and how its value is
/// said.
struct Row(Kind, usize, usize, &'static str, Where, &'static [Rule], Form);

/// The environment and the icon block, whose texts have the same names.
const TARGETS: &[u32] = &[0xA000_0001, 0xA000_0007];
const DARWIN: &[u32] = &[0xA000_0006];
const CONSOLE: &[u32] = &[0xA000_0002];
const TRACKER: &[u32] = &[0xA000_0003];
const CONSOLE_FE: &[u32] = &[0xA000_0004];
const SPECIAL: &[u32] = &[0xA000_0005];
const KNOWN: &[u32] = &[0xA000_000B];

/// The bits of both flag fields in LinkInfo that are to be clear.
const ABOVE_1: u32 = !3;

#[rustfmt::skip]
const ROWS: [Row; 83] = [
    Row(Kind::Header, 0, 4, "HeaderSize", Everywhere, &[Is(0x4C)], Number),
    Row(Kind::Header, 4, 16, "LinkCLSID", Everywhere, &[Bytes(&CLASS)], Identifiers),
    Row(Kind::Header, 20, 4, "LinkFlags", Everywhere, &[Clear(0xF800_0000)], LinkBits),
    Row(Kind::Header, 24, 4, "FileAttributes", Everywhere, &[Attributes], AttributeBits),
    Row(Kind::Header, 28, 8, "CreationTime", Everywhere, &[], Time),
    Row(Kind::Header, 36, 8, "AccessTime", Everywhere, &[], Time),
    Row(Kind::Header, 44, 8, "WriteTime", Everywhere, &[], Time),
    Row(Kind::Header, 52, 4, "FileSize", Everywhere, &[], Number),
    Row(Kind::Header, 56, 4, "IconIndex", Everywhere, &[], Signed),
    Row(Kind::Header, 60, 4, "ShowCommand", Everywhere, &[], Command),
    Row(Kind::Header, 64, 2, "HotKey", Everywhere, &[HotKey], Held),
    Row(Kind::Header, 66, 10, "Reserved1 to Reserved3", Everywhere, &[Bytes(&[0; 10])], Raw),
    Row(Kind::List, 0, 2, "IDListSize", Everywhere, &[Fits], Number),
    Row(Kind::Items, 0, 2, "ItemIDSize", Everywhere, &[Walked(2)], Number),
    Row(Kind::Info, 0, 4, "LinkInfoSize", Everywhere, &[AtLeast(0x1C), Fits], Number),
    Row(Kind::Info, 4, 4, "LinkInfoHeaderSize", Everywhere, &[Head], Hex),
    Row(Kind::Info, 8, 4, "LinkInfoFlags", Everywhere, &[Clear(ABOVE_1)], InfoBits),
    Row(Kind::Info, 12, 4, "VolumeIDOffset", Everywhere, &[Present(0), Structure], Hex),
    Row(Kind::Info, 16, 4, "LocalBasePathOffset", Everywhere, &[Present(0), Text(1), Apart], Hex),
    Row(Kind::Info, 20, 4, "CommonNetworkRelativeLinkOffset", Everywhere, &[Present(1), Structure, Apart], Hex),
    Row(Kind::Info, 24, 4, "CommonPathSuffixOffset", Everywhere, &[Text(1), Apart], Hex),
    Row(Kind::Info, 28, 4, "LocalBasePathOffsetUnicode", LongHead, &[Present(0), Text(2), Apart], Hex),
    Row(Kind::Info, 32, 4, "CommonPathSuffixOffsetUnicode", LongHead, &[Text(2), Apart], Hex),
    Row(Kind::Volume, 0, 4, "VolumeIDSize", Everywhere, &[AtLeast(0x11)], Number),
    Row(Kind::Volume, 4, 4, "DriveType", Everywhere, &[AtMost(6)], Drive),
    Row(Kind::Volume, 8, 4, "DriveSerialNumber", Everywhere, &[], Hex),
    Row(Kind::Volume, 12, 4, "VolumeLabelOffset", Everywhere, &[Label], Hex),
    Row(Kind::Volume, 16, 4, "VolumeLabelOffsetUnicode", LongHead, &[Text(2)], Hex),
    Row(Kind::Network, 0, 4, "CommonNetworkRelativeLinkSize", Everywhere, &[AtLeast(0x14)], Number),
    Row(Kind::Network, 4, 4, "CommonNetworkRelativeLinkFlags", Everywhere, &[Clear(ABOVE_1)], NetworkBits),
    Row(Kind::Network, 8, 4, "NetNameOffset", Everywhere, &[AtLeast(0x14), Text(1)], Hex),
    Row(Kind::Network, 12, 4, "DeviceNameOffset", Everywhere, &[Present(0), Text(1), Apart], Hex),
    Row(Kind::Network, 16, 4, "NetworkProviderType", Everywhere, &[Kept(1)], Hex),
    Row(Kind::Network, 20, 4, "NetNameOffsetUnicode", LongHead, &[Text(2), Apart], Hex),
    Row(Kind::Network, 24, 4, "DeviceNameOffsetUnicode", LongHead, &[Present(0), Text(2), Apart], Hex),
    Row(Kind::String, 0, 2, "CountCharacters", Everywhere, &[Fits], Number),
    Row(Kind::Block, 0, 4, "BlockSize", Everywhere, &[AtLeast(8), Fits, Signature], Number),
    Row(Kind::Block, 4, 4, "BlockSignature", Everywhere, &[Once], Stamp),
    Row(Kind::Block, 8, 260, "TargetAnsi", In(TARGETS), &[Ended(1)], Words(1)),
    Row(Kind::Block, 8, 260, "DarwinDataAnsi", In(DARWIN), &[Ended(1)], Words(1)),
    Row(Kind::Block, 268, 520, "TargetUnicode", In(TARGETS), &[Ended(2)], Words(2)),
    Row(Kind::Block, 268, 520, "DarwinDataUnicode", In(DARWIN), &[Ended(2)], Words(2)),
    Row(Kind::Block, 8, 2, "FillAttributes", In(CONSOLE), &[], Number),
    Row(Kind::Block, 10, 2, "PopupFillAttributes", In(CONSOLE), &[], Number),
    Row(Kind::Block, 12, 2, "ScreenBufferSizeX", In(CONSOLE), &[], Number),
    Row(Kind::Block, 14, 2, "ScreenBufferSizeY", In(CONSOLE), &[], Number),
    Row(Kind::Block, 16, 2, "WindowSizeX", In(CONSOLE), &[], Number),
    Row(Kind::Block, 18, 2, "WindowSizeY", In(CONSOLE), &[], Number),
    Row(Kind::Block, 20, 2, "WindowOriginX", In(CONSOLE), &[], Number),
    Row(Kind::Block, 22, 2, "WindowOriginY", In(CONSOLE), &[], Number),
    Row(Kind::Block, 24, 4, "Unused1", In(CONSOLE), &[], Number),
    Row(Kind::Block, 28, 4, "Unused2", In(CONSOLE), &[], Number),
    Row(Kind::Block, 32, 4, "FontSize", In(CONSOLE), &[], Number),
    Row(Kind::Block, 36, 4, "FontFamily", In(CONSOLE), &[], Number),
    Row(Kind::Block, 40, 4, "FontWeight", In(CONSOLE), &[], Number),
    Row(Kind::Block, 44, 64, "Face Name", In(CONSOLE), &[], Words(2)),
    Row(Kind::Block, 108, 4, "CursorSize", In(CONSOLE), &[], Number),
    Row(Kind::Block, 112, 4, "FullScreen", In(CONSOLE), &[], Number),
    Row(Kind::Block, 116, 4, "QuickEdit", In(CONSOLE), &[], Number),
    Row(Kind::Block, 120, 4, "InsertMode", In(CONSOLE), &[], Number),
    Row(Kind::Block, 124, 4, "AutoPosition", In(CONSOLE), &[], Number),
    Row(Kind::Block, 128, 4, "HistoryBufferSize", In(CONSOLE), &[], Number),
    Row(Kind::Block, 132, 4, "NumberOfHistoryBuffers", In(CONSOLE), &[], Number),
    Row(Kind::Block, 136, 4, "HistoryNoDup", In(CONSOLE), &[], Number),
    Row(Kind::Block, 140, 64, "ColorTable", In(CONSOLE), &[], Raw),
    Row(Kind::Block, 8, 4, "Length", In(TRACKER), &[], Number),
    Row(Kind::Block, 12, 4, "Version", In(TRACKER), &[], Number),
    Row(Kind::Block, 16, 16, "MachineID", In(TRACKER), &[], Words(1)),
    Row(Kind::Block, 32, 32, "Droid", In(TRACKER), &[], Identifiers),
    Row(Kind::Block, 64, 32, "DroidBirth", In(TRACKER), &[], Identifiers),
    Row(Kind::Block, 8, 4, "CodePage", In(CONSOLE_FE), &[], Number),
    Row(Kind::Block, 8, 4, "SpecialFolderID", In(SPECIAL), &[], Hex),
    Row(Kind::Block, 12, 4, "Offset", In(SPECIAL), &[], Number),
    Row(Kind::Block, 8, 16, "KnownFolderID", In(KNOWN), &[], Identifiers),
    Row(Kind::Block, 24, 4, "Offset", In(KNOWN), &[], Number),
    Row(Kind::Storage, 0, 4, "Storage Size", Everywhere, &[Walked(28)], Number),
    Row(Kind::Storage, 4, 4, "Version", Within, &[Is(0x5350_5331)], Hex),
    Row(Kind::Storage, 8, 16, "Format ID", Within, &[], Identifiers),
    Row(Kind::Value, 0, 4, "Value Size", Everywhere, &[Walked(9)], Number),
    Row(Kind::Value, 4, 4, "Name Size", Named, &[Name], Number),
    Row(Kind::Value, 4, 4, "Id", Numbered, &[], Number),
    Row(Kind::Value, 8, 1, "Reserved", Within, &[Is(0)], Number),
    Row(Kind::End, 0, 4, "TerminalBlock", Everywhere, &[], Number),
];

impl Row {
    /// Whether the field stands at an offset of the part; every item has the same one.
    fn stands(&self, part: &Part, offset: usize) -> bool {
        let there = match self.4 {
            Everywhere => true,
            LongHead => part.has_long_head(),
            Within => offset < part.field(0),
            Named => part.named && offset < part.field(0),
            Numbered => !part.named && offset < part.field(0),
            In(signatures) => part.number(4, 4).map_or(false, |number| signatures.contains(&(number as u32))),
        };
        self.0 == part.kind && there && (self.1 == offset || part.kind == Kind::Items)
    }

    fn standing(&self, part: &Part) -> Standing {
        let start = part.start + self.1;
        let is_present = self.5.iter().all(|rule| rule.is_present(part));
        let leads = self.5.iter().any(|rule| rule.width().is_some());
        let is_skipped = !is_present && (!leads || is_leftover(part));
        Standing { place: start..start + self.2, name: self.3, form: self.6, is_present, leads, is_skipped }
    }
}

/// The field that the position of a refusal names, and what is wrong with it. Two structures can have a field at one
/// place, as overlaps in LinkInfo are tested last, and a storage that lacks its last size is found wrong at its end: then
/// it is that of the first in which a rule is broken.
pub fn found(spot: &Spot, shortcut: &[u8]) -> Option<WrongField> {
    parts(spot, shortcut).iter().find_map(|part| wrong_in(part, spot.refusal.position.checked_sub(part.start)?))
}

fn wrong_in(part: &Part, offset: usize) -> Option<WrongField> {
    let row = ROWS.iter().find(|row| row.stands(part, offset))?;
    let (width, place) = (row.2, part.start + offset);
    let there = part.bytes.len().saturating_sub(offset).min(width);
    let wrong = match there < width {
        true => Some(format!("is cut off: {} of its {} bytes stand before {}", there, width, part.cut())),
        false => row.5.iter().find_map(|rule| rule.broken(part, offset, width)),
    };
    let structure = part.structure();
    wrong.map(|wrong| WrongField { structure, start: part.start, name: row.3, place: place..place + there, wrong })
}

/// The offset fields of LinkInfo or the network link that lead to a piece, in file order: offset, name, and 1 or 2 for
/// a text's bytes to a character, 0 for a structure.
pub fn pieces(part: &Part) -> Vec<(usize, &'static str, usize)> {
    let present = |row: &&Row| row.5.iter().all(|rule| rule.is_present(part));
    let rows = ROWS.iter().filter(|row| row.stands(part, row.1)).filter(present);
    let width = |row: &Row| row.5.iter().find_map(|rule| rule.width());
    rows.filter_map(|row| width(row).map(|width| (row.1, row.3, width))).collect()
}

/// A field at its place in a part, and how its value is said.
pub struct Standing {
    pub place: Range<usize>,
    pub name: &'static str,
    pub form: Form,
    /// Whether a flag says that what it holds or leads to is there.
    pub is_present: bool,
    /// Whether it leads to a piece.
    pub leads: bool,
    /// Whether no rule looks at it.
    pub is_skipped: bool,
}

/// All fields that stand at fixed offsets of a part, in file order, as far as the part has bytes for them.
pub fn standing(part: &Part) -> Vec<Standing> {
    let rows = ROWS.iter().filter(|row| row.stands(part, row.1) && row.1 + row.2 <= part.bytes.len());
    let mut found: Vec<Standing> = rows.map(|row| row.standing(part)).collect();
    found.sort_by_key(|field| field.place.start);
    found
}
