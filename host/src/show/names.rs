//! Names of bits, keys, drives and blocks, as MS-SHLLINK has them.

/// LinkFlags, bit 0 first (section 2.1.1).
const LINK_FLAGS: [&str; 27] = [
    "HasLinkTargetIDList",
    "HasLinkInfo",
    "HasName",
    "HasRelativePath",
    "HasWorkingDir",
    "HasArguments",
    "HasIconLocation",
    "IsUnicode",
    "ForceNoLinkInfo",
    "HasExpString",
    "RunInSeparateProcess",
    "Unused1",
    "HasDarwinID",
    "RunAsUser",
    "HasExpIcon",
    "NoPidAlias",
    "Unused2",
    "RunWithShimLayer",
    "ForceNoLinkTrack",
    "EnableTargetMetadata",
    "DisableLinkPathTracking",
    "DisableKnownFolderTracking",
    "DisableKnownFolderAlias",
    "AllowLinkToLink",
    "UnaliasOnSave",
    "PreferEnvironmentPath",
    "KeepLocalIDListForUNCTarget",
];

/// FileAttributes, bit 0 first, without FILE_ATTRIBUTE_ (section 2.1.2).
const ATTRIBUTES: [&str; 15] = [
    "READONLY",
    "HIDDEN",
    "SYSTEM",
    "Reserved1",
    "DIRECTORY",
    "ARCHIVE",
    "Reserved2",
    "NORMAL",
    "TEMPORARY",
    "SPARSE_FILE",
    "REPARSE_POINT",
    "COMPRESSED",
    "OFFLINE",
    "NOT_CONTENT_INDEXED",
    "ENCRYPTED",
];

/// LinkInfoFlags, bit 0 first (section 2.3).
const INFO_FLAGS: [&str; 2] = ["VolumeIDAndLocalBasePath", "CommonNetworkRelativeLinkAndPathSuffix"];

/// CommonNetworkRelativeLinkFlags, bit 0 first (section 2.3.2).
const NETWORK_FLAGS: [&str; 2] = ["ValidDevice", "ValidNetType"];

/// Drive types from 0 (section 2.3.1).
const DRIVES: [&str; 7] = ["unknown", "no root directory", "removable", "fixed", "remote", "CD-ROM", "RAM disk"];

/// Blocks by signature (section 2.5).
const BLOCKS: [(u32, &str); 11] = [
    (0xA000_0001, "EnvironmentVariableDataBlock"),
    (0xA000_0002, "ConsoleDataBlock"),
    (0xA000_0003, "TrackerDataBlock"),
    (0xA000_0004, "ConsoleFEDataBlock"),
    (0xA000_0005, "SpecialFolderDataBlock"),
    (0xA000_0006, "DarwinDataBlock"),
    (0xA000_0007, "IconEnvironmentDataBlock"),
    (0xA000_0008, "ShimDataBlock"),
    (0xA000_0009, "PropertyStoreDataBlock"),
    (0xA000_000B, "KnownFolderDataBlock"),
    (0xA000_000C, "VistaAndAboveIDListDataBlock"),
];

/// The rows of HighByte (section 2.1.3).
pub const MODIFIERS: [(u8, &str); 3] = [(0x01, "SHIFT"), (0x02, "CTRL"), (0x04, "ALT")];

/// The names of the bits that are set.
fn bits(number: u32, names: &[&'static str]) -> Vec<&'static str> {
    names.iter().enumerate().filter(|(bit, _)| number >> bit & 1 == 1).map(|(_, name)| *name).collect()
}

/// LinkFlags by name.
pub fn link_flags(flags: u32) -> Vec<&'static str> {
    bits(flags, &LINK_FLAGS)
}

/// FileAttributes by name.
pub fn attributes(attributes: u32) -> Vec<&'static str> {
    bits(attributes, &ATTRIBUTES)
}

/// LinkInfoFlags by name.
pub fn info_flags(flags: u32) -> Vec<&'static str> {
    bits(flags, &INFO_FLAGS)
}

/// CommonNetworkRelativeLinkFlags by name.
pub fn network_flags(flags: u32) -> Vec<&'static str> {
    bits(flags, &NETWORK_FLAGS)
}

/// A drive type by name.
pub fn drive(number: u32) -> &'static str {
    DRIVES.get(number as usize).unwrap_or(&"no drive type")
}

/// The name of the block with this signature, if MS-SHLLINK has one.
pub fn block(signature: u32) -> Option<&'static str> {
    BLOCKS.iter().find(|row| row.0 == signature).map(|row| row.1)
}

/// Sixteen bytes as an identifier is written: the first three numbers little-endian.
pub fn identifier(bytes: &[u8]) -> String {
    let hex = |places: &[usize]| -> String {
        places.iter().map(|&place| format!("{:02X}", bytes.get(place).copied().unwrap_or_default())).collect()
    };
    let (first, last) = (hex(&[3, 2, 1, 0]), hex(&[10, 11, 12, 13, 14, 15]));
    format!("{{{}-{}-{}-{}-{}}}", first, hex(&[5, 4]), hex(&[7, 6]), hex(&[8, 9]), last)
}

/// HotKey as a person says it, in the names and the order of the tables (section 2.1.3); a number if no rule allows it.
pub fn hotkey(hotkey: u16) -> String {
    if hotkey == 0 {
        return "none".to_string();
    }
    let [low, high] = hotkey.to_le_bytes();
    match (key_name(low), high) {
        (Some(key), 0..=7) => {
            let held = MODIFIERS.iter().filter(|(value, _)| high & value != 0);
            held.map(|(_, name)| format!("{}+", name)).chain([key]).collect()
        }
        _ => format!("0x{:04X}", hotkey),
    }
}

/// The key in a row of LowByte.
fn key_name(low: u8) -> Option<String> {
    match low {
        0x30..=0x39 | 0x41..=0x5A => Some(char::from(low).to_string()),
        0x70..=0x87 => Some(format!("F{}", low - 0x6F)),
        0x90 => Some("NUM LOCK".to_string()),
        0x91 => Some("SCROLL LOCK".to_string()),
        _ => None,
    }
}

/// Whether a row of LowByte has this key.
pub fn is_key(low: u8) -> bool {
    key_name(low).is_some()
}

#[cfg(test)]
mod tests {
    use super::*;

    #[test]
    fn bits_have_names() {
        let example = "HasLinkTargetIDList HasLinkInfo HasRelativePath HasWorkingDir IsUnicode EnableTargetMetadata";
        assert_eq!(link_flags(0x0008_009B).join(" "), example);
        assert_eq!(link_flags(0x0400_0000), ["KeepLocalIDListForUNCTarget"]);
        assert_eq!(attributes(0x20), ["ARCHIVE"]);
        assert_eq!(attributes(0x4000), ["ENCRYPTED"]);
        assert!(attributes(0).is_empty());
    }

    #[test]
    fn keys_have_names() {
        assert_eq!(hotkey(0), "none");
        assert_eq!(hotkey(0x0646), "CTRL+ALT+F");
        assert_eq!(hotkey(0x0770), "SHIFT+CTRL+ALT+F1");
        assert_eq!(hotkey(0x0087), "F24");
        assert_eq!(hotkey(0x0130), "SHIFT+0");
        assert_eq!(hotkey(0x0291), "CTRL+SCROLL LOCK");
        assert_eq!(hotkey(0x0846), "0x0846");
        assert_eq!(hotkey(0x0600), "0x0600");
    }

    #[test]
    fn drives_and_blocks_have_names() {
        assert_eq!((drive(3), drive(6)), ("fixed", "RAM disk"));
        assert_eq!(block(0xA000_000C), Some("VistaAndAboveIDListDataBlock"));
        assert_eq!(block(0xA000_000A), None);
    }

    #[test]
    fn identifiers_are_written_in_their_order() {
        let bytes: Vec<u8> = (0..16).collect();
        assert_eq!(identifier(&bytes), "{03020100-0504-0706-0809-0A0B0C0D0E0F}");
    }
}
