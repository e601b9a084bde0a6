//! The record: header fields, LinkInfo's fields, and a place and length for each body.

use super::Profile;

/// The count of numbers that a record has at the boundary.
pub const FIELDS: usize = 51;

#[derive(Clone, Copy, PartialEq, Eq, Debug, Default)]
pub struct Body {
    pub place: usize,
    pub length: usize,
}

impl Body {
    pub fn new(place: usize, length: usize) -> Body {
        Body { place, length }
    }

    /// The bytes of this body, unless it passes the buffer's end.
    pub fn of(self, buffer: &[u8]) -> Option<&[u8]> {
        buffer.get(self.place..self.place.checked_add(self.length)?)
    }
}

#[derive(Clone, Copy, PartialEq, Eq, Debug, Default)]
pub struct Header {
    pub link_flags: u32,
    pub file_attributes: u32,
    pub creation_time: u64,
    pub access_time: u64,
    pub write_time: u64,
    pub file_size: u32,
    pub icon_index: i32,
    pub show_command: u32,
    pub hot_key: u16,
}

impl Header {
    pub fn follows_rules(&self, profile: Profile) -> bool {
        self.wrong_field(profile).is_none()
    }

    /// The first field against its rule, by its place in the header.
    pub fn wrong_field(&self, profile: Profile) -> Option<usize> {
        let rules = [
            (self.link_flags & 0xF800_0000 == 0, 20),
            (self.file_attributes & profile.forbidden_attributes() == 0, 24),
            (is_hot_key(self.hot_key), 64),
        ];
        rules.iter().find(|(holds, _)| !holds).map(|&(_, field)| field)
    }
}

fn is_hot_key(key: u16) -> bool {
    let [low, high] = key.to_le_bytes();
    let known = matches!(low, 0x30..=0x39 | 0x41..=0x5A | 0x70..=0x87 | 0x90..=0x91);
    key == 0 || known && high <= 7
}

#[derive(Clone, Copy, PartialEq, Eq, Debug, Default)]
pub enum LabelKind {
    #[default]
    Byte,
    Unicode,
}

#[derive(Clone, Copy, PartialEq, Eq, Debug, Default)]
pub struct Volume {
    pub drive_type: u32,
    pub serial: u32,
    pub label_kind: LabelKind,
    pub label: Body,
}

#[derive(Clone, Copy, PartialEq, Eq, Debug, Default)]
pub struct Network {
    pub flags: u32,
    pub provider_type: u32,
    pub unicode_names: bool,
    pub net_name: Body,
    pub device_name: Body,
    pub unicode_net_name: Body,
    pub unicode_device_name: Body,
}

#[derive(Clone, Copy, PartialEq, Eq, Debug, Default)]
pub struct Info {
    pub flags: u32,
    pub long_head: bool,
    pub volume: Volume,
    pub local_path: Body,
    pub network: Network,
    pub suffix: Body,
    pub unicode_local_path: Body,
    pub unicode_suffix: Body,
    /// What a long head has after its first 0x24 bytes.
    pub further_bytes: Body,
}

#[derive(Clone, PartialEq, Eq, Debug, Default)]
pub struct Record {
    pub header: Header,
    pub items: Body,
    pub info: Info,
    /// Name, relative path, working directory, arguments, icon.
    pub strings: [Body; 5],
    pub blocks: Body,
}

impl Record {
    pub fn to_fields(&self) -> [u64; FIELDS] {
        let mut fields = [0; FIELDS];
        self.put_fields(&mut fields);
        fields
    }

    pub fn put_fields(&self, fields: &mut [u64; FIELDS]) {
        self.put_header(fields);
        self.put_info(fields);
        put_body(fields, 0, self.items);
        for (number, string) in self.strings.iter().enumerate() {
            put_body(fields, 10 + number, *string);
        }
        put_body(fields, 15, self.blocks);
    }

    fn put_header(&self, fields: &mut [u64; FIELDS]) {
        let header = &self.header;
        fields[0] = header.link_flags.into();
        fields[1] = header.file_attributes.into();
        fields[2] = header.creation_time;
        fields[3] = header.access_time;
        fields[4] = header.write_time;
        fields[5] = header.file_size.into();
        fields[6] = (header.icon_index as u32).into();
        fields[7] = header.show_command.into();
        fields[8] = header.hot_key.into();
    }

    fn put_info(&self, fields: &mut [u64; FIELDS]) {
        let info = &self.info;
        let volume = &info.volume;
        let network = &info.network;
        fields[9] = info.flags.into();
        fields[10] = info.long_head.into();
        fields[11] = volume.drive_type.into();
        fields[12] = volume.serial.into();
        fields[13] = (volume.label_kind == LabelKind::Unicode).into();
        fields[14] = network.flags.into();
        fields[15] = network.provider_type.into();
        fields[16] = network.unicode_names.into();
        put_body(fields, 1, volume.label);
        put_body(fields, 2, info.local_path);
        put_body(fields, 3, network.net_name);
        put_body(fields, 4, network.device_name);
        put_body(fields, 5, network.unicode_net_name);
        put_body(fields, 6, network.unicode_device_name);
        put_body(fields, 7, info.suffix);
        put_body(fields, 8, info.unicode_local_path);
        put_body(fields, 9, info.unicode_suffix);
        put_body(fields, 16, info.further_bytes);
    }

    /// None for numbers that are no record.
    pub fn from_fields(fields: &[u64]) -> Option<Record> {
        if fields.len() != FIELDS {
            return None;
        }
        Some(Record {
            header: header_from(&fields[..9])?,
            items: body_from(fields, 0)?,
            info: info_from(fields)?,
            strings: [
                body_from(fields, 10)?,
                body_from(fields, 11)?,
                body_from(fields, 12)?,
                body_from(fields, 13)?,
                body_from(fields, 14)?,
            ],
            blocks: body_from(fields, 15)?,
        })
    }
}

fn header_from(fields: &[u64]) -> Option<Header> {
    Some(Header {
        link_flags: narrow(fields[0])?,
        file_attributes: narrow(fields[1])?,
        creation_time: fields[2],
        access_time: fields[3],
        write_time: fields[4],
        file_size: narrow(fields[5])?,
        icon_index: narrow(fields[6])? as i32,
        show_command: narrow(fields[7])?,
        hot_key: fields[8].try_into().ok()?,
    })
}

fn info_from(fields: &[u64]) -> Option<Info> {
    let volume = Volume {
        drive_type: narrow(fields[11])?,
        serial: narrow(fields[12])?,
        label_kind: if truth(fields[13])? { LabelKind::Unicode } else { LabelKind::Byte },
        label: body_from(fields, 1)?,
    };
    let network = Network {
        flags: narrow(fields[14])?,
        provider_type: narrow(fields[15])?,
        unicode_names: truth(fields[16])?,
        net_name: body_from(fields, 3)?,
        device_name: body_from(fields, 4)?,
        unicode_net_name: body_from(fields, 5)?,
        unicode_device_name: body_from(fields, 6)?,
    };
    Some(Info {
        flags: narrow(fields[9])?,
        long_head: truth(fields[10])?,
        volume,
        local_path: body_from(fields, 2)?,
        network,
        suffix: body_from(fields, 7)?,
        unicode_local_path: body_from(fields, 8)?,
        unicode_suffix: body_from(fields, 9)?,
        further_bytes: body_from(fields, 16)?,
    })
}

fn put_body(fields: &mut [u64; FIELDS], number: usize, body: Body) {
    fields[17 + 2 * number] = body.place as u64;
    fields[18 + 2 * number] = body.length as u64;
}

fn body_from(fields: &[u64], number: usize) -> Option<Body> {
    let place = fields[17 + 2 * number].try_into().ok()?;
    let length = fields[18 + 2 * number].try_into().ok()?;
    Some(Body { place, length })
}

fn narrow(field: u64) -> Option<u32> {
    field.try_into().ok()
}

fn truth(field: u64) -> Option<bool> {
    match field {
        0 => Some(false),
        1 => Some(true),
        _ => None,
    }
}
