//! The writer: what a record holds is gathered, judged and laid out end to end.

use super::{
    are_blocks, are_items, Header, Info, LabelKind, Network, Profile, Record, Refusal, Volume, HEADER_LENGTH, LIMIT,
    MAGIC_BYTES, PLACE, ROOM, UNWRITABLE,
};

/// What counts of a record: its fields and the bytes of its bodies, with nothing for what is absent.
#[derive(PartialEq, Debug, Default)]
struct Contents<'a> {
    header: Header,
    items: Option<&'a [u8]>,
    has_info: bool,
    info: InfoContents<'a>,
    strings: [Option<&'a [u8]>; 5],
    blocks: &'a [u8],
}

#[derive(PartialEq, Debug, Default)]
struct InfoContents<'a> {
    flags: u32,
    long_head: bool,
    volume: VolumeContents<'a>,
    local_path: &'a [u8],
    network: NetworkContents<'a>,
    suffix: &'a [u8],
    unicode_local_path: &'a [u8],
    unicode_suffix: &'a [u8],
    /// There with the short head too, where it must be empty.
    further_bytes: &'a [u8],
}

#[derive(PartialEq, Debug, Default)]
struct VolumeContents<'a> {
    drive_type: u32,
    serial: u32,
    label_kind: LabelKind,
    label: &'a [u8],
}

#[derive(PartialEq, Debug, Default)]
struct NetworkContents<'a> {
    flags: u32,
    provider_type: u32,
    unicode_names: bool,
    net_name: &'a [u8],
    device_name: &'a [u8],
    unicode_net_name: &'a [u8],
    unicode_device_name: &'a [u8],
}

pub fn write(record: &Record, body: &[u8], out: &mut [u8], profile: Profile) -> Result<usize, Refusal> {
    let refuse = Refusal::nowhere;
    let mut contents = Contents::default();
    contents.gather(record, body).ok_or_else(|| refuse(PLACE))?;
    let length = contents.length();
    if length > LIMIT || !contents.follow_rules(profile) {
        return Err(refuse(UNWRITABLE));
    }
    let room = out.get_mut(..length).ok_or_else(|| refuse(ROOM))?;
    contents.put(&mut Pen { out: room, at: 0 });
    Ok(length)
}

impl Record {
    /// Equal fields and equal bytes in each body; false if a body passes its buffer's end.
    pub fn same(&self, body: &[u8], other: &Record, other_body: &[u8]) -> bool {
        let (mut one, mut two) = (Contents::default(), Contents::default());
        one.gather(self, body).is_some() && two.gather(other, other_body).is_some() && one == two
    }
}

impl<'a> Contents<'a> {
    /// None if a present body passes the buffer's end.
    fn gather(&mut self, record: &Record, body: &'a [u8]) -> Option<()> {
        self.header = record.header;
        let flags = self.header.link_flags;
        if flags & 1 != 0 {
            self.items = Some(record.items.of(body)?);
        }
        self.has_info = flags & 2 != 0;
        if self.has_info {
            self.info.gather(&record.info, body)?;
        }
        for (number, string) in self.strings.iter_mut().enumerate() {
            if flags >> (2 + number) & 1 != 0 {
                *string = Some(record.strings[number].of(body)?);
            }
        }
        self.blocks = record.blocks.of(body)?;
        Some(())
    }

    fn is_unicode(&self) -> bool {
        self.header.link_flags & 0x80 != 0
    }

    fn length(&self) -> usize {
        let items = self.items.map_or(0, |items| 2 + capped(items) + 2);
        let info = if self.has_info { self.info.length() } else { 0 };
        let strings: usize = self.strings.iter().flatten().map(|string| 2 + capped(string)).sum();
        HEADER_LENGTH + items + info + strings + capped(self.blocks) + 4
    }

    fn follow_rules(&self, profile: Profile) -> bool {
        self.header.follows_rules(profile)
            && self.items.map_or(true, are_items)
            && (!self.has_info || self.info.follow_rules())
            && self.strings.iter().flatten().all(|s| !self.is_unicode() || s.len() % 2 == 0)
            && are_blocks(self.blocks)
    }

    fn put(&self, pen: &mut Pen) {
        put_header(&self.header, pen);
        if let Some(items) = self.items {
            pen.u16(items.len() + 2);
            pen.bytes(items);
            pen.u16(0);
        }
        if self.has_info {
            self.info.put(pen);
        }
        let width = if self.is_unicode() { 2 } else { 1 };
        for string in self.strings.iter().flatten() {
            pen.u16(string.len() / width);
            pen.bytes(string);
        }
        pen.bytes(self.blocks);
        pen.u32(0);
    }
}

fn put_header(header: &Header, pen: &mut Pen) {
    pen.bytes(&MAGIC_BYTES);
    pen.u32(header.link_flags);
    pen.u32(header.file_attributes);
    pen.bytes(&header.creation_time.to_le_bytes());
    pen.bytes(&header.access_time.to_le_bytes());
    pen.bytes(&header.write_time.to_le_bytes());
    pen.u32(header.file_size);
    pen.u32(header.icon_index as u32);
    pen.u32(header.show_command);
    pen.bytes(&header.hot_key.to_le_bytes());
    pen.bytes(&[0; 10]);
}

impl<'a> InfoContents<'a> {
    fn gather(&mut self, info: &Info, body: &'a [u8]) -> Option<()> {
        self.flags = info.flags;
        self.long_head = info.long_head;
        if self.has_local() {
            self.volume.gather(&info.volume, body)?;
            self.local_path = info.local_path.of(body)?;
        }
        if self.has_network() {
            self.network.gather(&info.network, body)?;
        }
        self.suffix = info.suffix.of(body)?;
        self.further_bytes = info.further_bytes.of(body)?;
        if self.long_head {
            if self.has_local() {
                self.unicode_local_path = info.unicode_local_path.of(body)?;
            }
            self.unicode_suffix = info.unicode_suffix.of(body)?;
        }
        Some(())
    }

    fn has_local(&self) -> bool {
        self.flags & 1 != 0
    }

    fn has_network(&self) -> bool {
        self.flags & 2 != 0
    }

    fn head_length(&self) -> usize {
        if self.long_head {
            0x24 + capped(self.further_bytes)
        } else {
            0x1C
        }
    }

    fn length(&self) -> usize {
        let mut length = self.head_length() + capped(self.suffix) + 1;
        if self.has_local() {
            length += self.volume.length() + capped(self.local_path) + 1;
        }
        if self.has_network() {
            length += self.network.length();
        }
        if self.long_head {
            length += capped(self.unicode_suffix) + 2;
            if self.has_local() {
                length += capped(self.unicode_local_path) + 2;
            }
        }
        length
    }

    /// Absent texts are empty here, and so break no rule.
    fn follow_rules(&self) -> bool {
        self.flags <= 3
            && self.volume.follow_rules()
            && is_text(self.local_path)
            && self.network.follow_rules()
            && is_text(self.suffix)
            && is_unicode_text(self.unicode_local_path)
            && is_unicode_text(self.unicode_suffix)
            && (self.long_head || self.further_bytes.is_empty())
    }

    fn put(&self, pen: &mut Pen) {
        let (local, network) = (self.has_local(), self.has_network());
        pen.size(self.length());
        pen.size(self.head_length());
        pen.u32(self.flags);
        let mut next = self.head_length();
        pen.offset(&mut next, local, self.volume.length());
        pen.offset(&mut next, local, self.local_path.len() + 1);
        pen.offset(&mut next, network, self.network.length());
        pen.offset(&mut next, true, self.suffix.len() + 1);
        if self.long_head {
            pen.offset(&mut next, local, self.unicode_local_path.len() + 2);
            pen.offset(&mut next, true, self.unicode_suffix.len() + 2);
            pen.bytes(self.further_bytes);
        }
        self.put_pieces(pen);
    }

    fn put_pieces(&self, pen: &mut Pen) {
        if self.has_local() {
            self.volume.put(pen);
            pen.text(self.local_path);
        }
        if self.has_network() {
            self.network.put(pen);
        }
        pen.text(self.suffix);
        if self.long_head {
            if self.has_local() {
                pen.unicode_text(self.unicode_local_path);
            }
            pen.unicode_text(self.unicode_suffix);
        }
    }
}

impl<'a> VolumeContents<'a> {
    fn gather(&mut self, volume: &Volume, body: &'a [u8]) -> Option<()> {
        self.drive_type = volume.drive_type;
        self.serial = volume.serial;
        self.label_kind = volume.label_kind;
        self.label = volume.label.of(body)?;
        Some(())
    }

    fn length(&self) -> usize {
        match self.label_kind {
            LabelKind::Byte => 0x10 + capped(self.label) + 1,
            LabelKind::Unicode => 0x14 + capped(self.label) + 2,
        }
    }

    fn follow_rules(&self) -> bool {
        self.drive_type <= 6
            && match self.label_kind {
                LabelKind::Byte => is_text(self.label),
                LabelKind::Unicode => is_unicode_text(self.label),
            }
    }

    fn put(&self, pen: &mut Pen) {
        pen.size(self.length());
        pen.u32(self.drive_type);
        pen.u32(self.serial);
        match self.label_kind {
            LabelKind::Byte => {
                pen.u32(0x10);
                pen.text(self.label);
            }
            LabelKind::Unicode => {
                pen.u32(0x14);
                pen.u32(0x14);
                pen.unicode_text(self.label);
            }
        }
    }
}

impl<'a> NetworkContents<'a> {
    fn gather(&mut self, network: &Network, body: &'a [u8]) -> Option<()> {
        self.flags = network.flags;
        if network.flags & 2 != 0 {
            self.provider_type = network.provider_type;
        }
        self.unicode_names = network.unicode_names;
        self.net_name = network.net_name.of(body)?;
        if self.has_device() {
            self.device_name = network.device_name.of(body)?;
        }
        if self.unicode_names {
            self.unicode_net_name = network.unicode_net_name.of(body)?;
            if self.has_device() {
                self.unicode_device_name = network.unicode_device_name.of(body)?;
            }
        }
        Some(())
    }

    fn has_device(&self) -> bool {
        self.flags & 1 != 0
    }

    fn head_length(&self) -> usize {
        if self.unicode_names {
            0x1C
        } else {
            0x14
        }
    }

    fn length(&self) -> usize {
        let mut length = self.head_length() + capped(self.net_name) + 1;
        if self.has_device() {
            length += capped(self.device_name) + 1;
        }
        if self.unicode_names {
            length += capped(self.unicode_net_name) + 2;
            if self.has_device() {
                length += capped(self.unicode_device_name) + 2;
            }
        }
        length
    }

    /// Absent names are empty here, and so break no rule.
    fn follow_rules(&self) -> bool {
        self.flags <= 3
            && is_text(self.net_name)
            && is_text(self.device_name)
            && is_unicode_text(self.unicode_net_name)
            && is_unicode_text(self.unicode_device_name)
    }

    fn put(&self, pen: &mut Pen) {
        let device = self.has_device();
        pen.size(self.length());
        pen.u32(self.flags);
        let mut next = self.head_length();
        pen.offset(&mut next, true, self.net_name.len() + 1);
        pen.offset(&mut next, device, self.device_name.len() + 1);
        pen.u32(self.provider_type);
        if self.unicode_names {
            pen.offset(&mut next, true, self.unicode_net_name.len() + 2);
            pen.offset(&mut next, device, self.unicode_device_name.len() + 2);
        }
        pen.text(self.net_name);
        if device {
            pen.text(self.device_name);
        }
        if self.unicode_names {
            pen.unicode_text(self.unicode_net_name);
            if device {
                pen.unicode_text(self.unicode_device_name);
            }
        }
    }
}

/// A body's length, capped above the limit so that sums cannot overflow.
fn capped(body: &[u8]) -> usize {
    body.len().min(LIMIT + 1)
}

fn is_text(body: &[u8]) -> bool {
    !body.contains(&0)
}

fn is_unicode_text(body: &[u8]) -> bool {
    body.len() % 2 == 0 && body.chunks_exact(2).all(|unit| unit != [0, 0])
}

/// Writes from the front of a room that has been found long enough.
struct Pen<'a> {
    out: &'a mut [u8],
    at: usize,
}

impl Pen<'_> {
    #[inline]
    fn bytes(&mut self, bytes: &[u8]) {
        let end = self.at + bytes.len();
        self.out[self.at..end].copy_from_slice(bytes);
        self.at = end;
    }

    #[inline]
    fn u16(&mut self, number: usize) {
        self.bytes(&(number as u16).to_le_bytes());
    }

    #[inline]
    fn u32(&mut self, number: u32) {
        self.bytes(&number.to_le_bytes());
    }

    #[inline]
    fn size(&mut self, size: usize) {
        self.u32(size as u32);
    }

    /// The offset of the next piece, which has this length; 0 for an absent one.
    #[inline]
    fn offset(&mut self, next: &mut usize, present: bool, length: usize) {
        if present {
            self.size(*next);
            *next += length;
        } else {
            self.u32(0);
        }
    }

    fn text(&mut self, text: &[u8]) {
        self.bytes(text);
        self.bytes(&[0]);
    }

    fn unicode_text(&mut self, text: &[u8]) {
        self.bytes(text);
        self.bytes(&[0, 0]);
    }
}
