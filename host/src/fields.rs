//! The 51 numbers in which a record crosses the boundary, by name.
//!
//! [`Record`](crate::Record) is the comfortable form of the same; this order is for callers of
//! [`boundary`](crate::boundary) and is that of `herringnet.h`.

/// How many numbers a record has at the boundary.
pub const FIELDS: usize = 51;

macro_rules! fields {
    ($($(#[doc = $doc:literal])* $name:ident = $number:literal,)*) => {
        $($(#[doc = $doc])* pub const $name: usize = $number;)*

        /// Every field's name and number, in order.
        pub const NAMES: [(&str, usize); FIELDS] = [$((stringify!($name), $number),)*];
    };
}

fields! {
    /// LinkFlags: 32 bits.
    LINK_FLAGS = 0,
    /// FileAttributes: 32 bits.
    ATTRIBUTES = 1,
    /// Creation time: 64 bits.
    CREATION = 2,
    /// Access time: 64 bits.
    ACCESS = 3,
    /// Write time: 64 bits.
    WRITE = 4,
    /// FileSize: 32 bits.
    FILE_SIZE = 5,
    /// IconIndex: the 32 bits of the signed number.
    ICON_INDEX = 6,
    /// ShowCommand: 32 bits.
    COMMAND = 7,
    /// HotKey: 16 bits.
    HOTKEY = 8,
    /// LinkInfo's flags: 32 bits.
    INFO_FLAGS = 9,
    /// 1 where LinkInfo has a long head, else 0.
    LONG = 10,
    /// VolumeID's drive type: 32 bits.
    DRIVE = 11,
    /// VolumeID's serial: 32 bits.
    SERIAL = 12,
    /// The label's kind: 0 byte, 1 Unicode.
    LABEL_KIND = 13,
    /// The network link's flags: 32 bits.
    NETWORK_FLAGS = 14,
    /// The network link's provider type: 32 bits.
    PROVIDER = 15,
    /// 1 where the network link has Unicode names, else 0.
    UNICODE = 16,
    /// The items' place.
    ITEMS_AT = 17,
    /// The items' length.
    ITEMS_LEN = 18,
    /// The label's place.
    LABEL_AT = 19,
    /// The label's length.
    LABEL_LEN = 20,
    /// The local path's place.
    LOCAL_AT = 21,
    /// The local path's length.
    LOCAL_LEN = 22,
    /// The net name's place.
    NET_AT = 23,
    /// The net name's length.
    NET_LEN = 24,
    /// The device name's place.
    DEVICE_AT = 25,
    /// The device name's length.
    DEVICE_LEN = 26,
    /// The Unicode net name's place.
    NET_UNICODE_AT = 27,
    /// The Unicode net name's length.
    NET_UNICODE_LEN = 28,
    /// The Unicode device name's place.
    DEVICE_UNICODE_AT = 29,
    /// The Unicode device name's length.
    DEVICE_UNICODE_LEN = 30,
    /// The suffix's place.
    SUFFIX_AT = 31,
    /// The suffix's length.
    SUFFIX_LEN = 32,
    /// The Unicode local path's place.
    LOCAL_UNICODE_AT = 33,
    /// The Unicode local path's length.
    LOCAL_UNICODE_LEN = 34,
    /// The Unicode suffix's place.
    SUFFIX_UNICODE_AT = 35,
    /// The Unicode suffix's length.
    SUFFIX_UNICODE_LEN = 36,
    /// The name's place.
    NAME_AT = 37,
    /// The name's length.
    NAME_LEN = 38,
    /// The relative path's place.
    RELATIVE_AT = 39,
    /// The relative path's length.
    RELATIVE_LEN = 40,
    /// The working directory's place.
    WORKDIR_AT = 41,
    /// The working directory's length.
    WORKDIR_LEN = 42,
    /// The arguments' place.
    ARGUMENTS_AT = 43,
    /// The arguments' length.
    ARGUMENTS_LEN = 44,
    /// The icon's place.
    ICON_AT = 45,
    /// The icon's length.
    ICON_LEN = 46,
    /// The blocks' place.
    BLOCKS_AT = 47,
    /// The blocks' length.
    BLOCKS_LEN = 48,
    /// The place of the further bytes of LinkInfo's head.
    FURTHER_AT = 49,
    /// Their length.
    FURTHER_LEN = 50,
}
