//! LinkInfo, given as a part of the file.

use super::{u32_at, Body, Info, LabelKind, Network, Part, Profile, Volume, Why, Wrong, CUT, INFO, PIECE};

/// Bytes of the file: offsets count from their start, places from the file's.
#[derive(Clone, Copy)]
struct Stretch<'a> {
    bytes: &'a [u8],
    place: usize,
}

/// Start and end of a piece in the file; an absent one is empty.
#[derive(Clone, Copy, Default)]
struct Span {
    start: usize,
    end: usize,
}

impl Span {
    fn of(body: Body, terminator: usize) -> Span {
        Span { start: body.place, end: body.place + body.length + terminator }
    }

    fn meets(self, other: Span) -> bool {
        self.start < other.end && other.start < self.end
    }
}

impl<'a> Stretch<'a> {
    fn number(self, at: usize) -> usize {
        u32_at(self.bytes, at) as usize
    }

    fn span(self) -> Span {
        Span { start: self.place, end: self.place + self.bytes.len() }
    }

    /// The bytes from a piece's offset on.
    fn after_head(self, head: usize, offset: usize) -> Result<&'a [u8], Why> {
        if offset < head {
            return Err(Why::Small);
        }
        self.bytes.get(offset..).filter(|rest| !rest.is_empty()).ok_or(Why::Past)
    }

    /// A structure with its size in its first four bytes.
    fn structure(self, head: usize, offset: usize) -> Result<Stretch<'a>, Why> {
        let rest = self.after_head(head, offset)?;
        let size = u32_at(rest.get(..4).ok_or(Why::Past)?, 0) as usize;
        Ok(Stretch { bytes: rest.get(..size).ok_or(Why::Long)?, place: self.place + offset })
    }

    fn text(self, head: usize, offset: usize) -> Result<Body, Why> {
        let rest = self.after_head(head, offset)?;
        let length = rest.iter().position(|&byte| byte == 0).ok_or(Why::Unended)?;
        Ok(Body::new(self.place + offset, length))
    }

    fn unicode_text(self, head: usize, offset: usize) -> Result<Body, Why> {
        let rest = self.after_head(head, offset)?;
        let units = rest.chunks_exact(2).position(|unit| unit == [0, 0]).ok_or(Why::Unended)?;
        Ok(Body::new(self.place + offset, 2 * units))
    }
}

struct Head {
    size: usize,
    flags: u32,
    long: bool,
    volume: usize,
    local_path: usize,
    network: usize,
    suffix: usize,
    unicode_local_path: usize,
    unicode_suffix: usize,
}

/// LinkInfo at the start of the rest, which stands at this place; with its length.
pub(super) fn read(rest: &[u8], place: usize, profile: Profile) -> Result<(Info, usize), Wrong> {
    let size_is = |number, why| Wrong::new(number, Part::Info, 0, why);
    let size = u32_at(rest.get(..4).ok_or(size_is(CUT, Why::Cut))?, 0) as usize;
    if size < 0x1C {
        return Err(size_is(INFO, Why::Small));
    }
    let bytes = rest.get(..size).ok_or(size_is(CUT, Why::Past))?;
    let info = Stretch { bytes, place };
    let head = read_head(info, profile)?;
    Ok((read_pieces(info, &head)?, size))
}

fn read_head(part: Stretch, profile: Profile) -> Result<Head, Wrong> {
    let wrong = |field, why| Err(Wrong::new(INFO, Part::Info, field, why));
    let size = part.number(4);
    let long = size != 0x1C;
    if long && !(0x24..=part.bytes.len()).contains(&size) {
        return wrong(4, Why::Value);
    }
    let head = Head {
        size,
        flags: u32_at(part.bytes, 8),
        long,
        volume: part.number(12),
        local_path: part.number(16),
        network: part.number(20),
        suffix: part.number(24),
        unicode_local_path: if long { part.number(28) } else { 0 },
        unicode_suffix: if long { part.number(32) } else { 0 },
    };
    if head.flags > 3 {
        return wrong(8, Why::Value);
    }
    let (local, network) = (head.flags & 1 != 0, head.flags & 2 != 0);
    let offsets = [
        (12, local, head.volume),
        (16, local, head.local_path),
        (20, network, head.network),
        (28, local, head.unicode_local_path),
    ];
    match offsets.iter().find(|(_, present, offset)| !present && *offset != 0) {
        Some(&(field, ..)) if !profile.forgives_leftovers() => wrong(field, Why::Absent),
        _ => Ok(head),
    }
}

fn read_pieces(part: Stretch, head: &Head) -> Result<Info, Wrong> {
    let wrong = |field| move |why| Wrong::new(PIECE, Part::Info, field, why);
    let mut info = Info { flags: head.flags, long_head: head.long, ..Info::default() };
    let mut spans = [Span::default(); 6];
    if head.flags & 1 != 0 {
        let volume = part.structure(head.size, head.volume).map_err(wrong(12))?;
        info.volume = read_volume(volume).map_err(|wrong| wrong.inside(head.volume))?;
        spans[0] = volume.span();
        info.local_path = part.text(head.size, head.local_path).map_err(wrong(16))?;
        spans[1] = Span::of(info.local_path, 1);
    }
    if head.flags & 2 != 0 {
        let network = part.structure(head.size, head.network).map_err(wrong(20))?;
        info.network = read_network(network).map_err(|wrong| wrong.inside(head.network))?;
        spans[2] = network.span();
    }
    info.suffix = part.text(head.size, head.suffix).map_err(wrong(24))?;
    spans[3] = Span::of(info.suffix, 1);
    if head.long {
        info.further_bytes = Body::new(part.place + 0x24, head.size - 0x24);
        if head.flags & 1 != 0 {
            info.unicode_local_path = part.unicode_text(head.size, head.unicode_local_path).map_err(wrong(28))?;
            spans[4] = Span::of(info.unicode_local_path, 2);
        }
        info.unicode_suffix = part.unicode_text(head.size, head.unicode_suffix).map_err(wrong(32))?;
        spans[5] = Span::of(info.unicode_suffix, 2);
    }
    match first_shared(&spans) {
        Some(number) => Err(wrong([12, 16, 20, 24, 28, 32][number])(Why::Shared)),
        None => Ok(info),
    }
}

fn read_volume(part: Stretch) -> Result<Volume, Wrong> {
    let wrong = |field| move |why| Wrong::new(PIECE, Part::Volume, field, why);
    if part.bytes.len() < 0x11 {
        return Err(wrong(0)(Why::Small));
    }
    let drive_type = u32_at(part.bytes, 4);
    if drive_type > 6 {
        return Err(wrong(4)(Why::Value));
    }
    let serial = u32_at(part.bytes, 8);
    let (label_kind, label) = match part.number(12) {
        0x14 if part.bytes.len() < 0x14 => return Err(wrong(16)(Why::Cut)),
        0x14 => (LabelKind::Unicode, part.unicode_text(0x14, part.number(16)).map_err(wrong(16))?),
        offset => (LabelKind::Byte, part.text(0x10, offset).map_err(wrong(12))?),
    };
    Ok(Volume { drive_type, serial, label_kind, label })
}

fn read_network(part: Stretch) -> Result<Network, Wrong> {
    let (flags, head) = network_head(part)?;
    let wrong = |field| move |why| Wrong::new(PIECE, Part::Network, field, why);
    let provider_type = if flags & 2 != 0 { u32_at(part.bytes, 16) } else { 0 };
    let unicode_names = head == 0x1C;
    let mut network = Network { flags, provider_type, unicode_names, ..Network::default() };
    let mut spans = [Span::default(); 4];
    let has_device = flags & 1 != 0;
    network.net_name = part.text(head, part.number(8)).map_err(wrong(8))?;
    spans[0] = Span::of(network.net_name, 1);
    if has_device {
        network.device_name = part.text(head, part.number(12)).map_err(wrong(12))?;
        spans[1] = Span::of(network.device_name, 1);
    }
    if unicode_names {
        network.unicode_net_name = part.unicode_text(head, part.number(20)).map_err(wrong(20))?;
        spans[2] = Span::of(network.unicode_net_name, 2);
        if has_device {
            network.unicode_device_name = part.unicode_text(head, part.number(24)).map_err(wrong(24))?;
            spans[3] = Span::of(network.unicode_device_name, 2);
        }
    }
    match first_shared(&spans) {
        Some(number) => Err(wrong([8, 12, 20, 24][number])(Why::Shared)),
        None => Ok(network),
    }
}

/// Flags and head length of the network link, once all rules hold that stand before those of its names.
fn network_head(part: Stretch) -> Result<(u32, usize), Wrong> {
    let wrong = |field, why| Err(Wrong::new(PIECE, Part::Network, field, why));
    let size = part.bytes.len();
    if size < 0x14 {
        return wrong(0, Why::Small);
    }
    let flags = u32_at(part.bytes, 4);
    if flags > 3 {
        return wrong(4, Why::Value);
    }
    let name = part.number(8);
    if name < 0x14 {
        return wrong(8, Why::Small);
    }
    let head = if name > 0x14 { 0x1C } else { 0x14 };
    if let Some(field) = (20..head).step_by(4).find(|field| field + 4 > size) {
        return wrong(field, Why::Cut);
    }
    let mut device = [12, 24].iter().copied().filter(|&field| field < head);
    match device.find(|&field| flags & 1 == 0 && part.number(field) != 0) {
        Some(field) => wrong(field, Why::Absent),
        None => Ok((flags, head)),
    }
}

/// The first span that shares a byte with one before it.
fn first_shared(spans: &[Span]) -> Option<usize> {
    (0..spans.len()).find(|&number| spans[..number].iter().any(|earlier| earlier.meets(spans[number])))
}
