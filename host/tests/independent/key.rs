//! The cache key, made from the words of request 02 alone.

use super::{
    walk, Body, Header, Info, Profile, Refusal, Target, Texts, Visit, ROOM, SECTION_ARGUMENTS, SECTION_WORKDIR,
};

const ENVIRONMENT: u32 = 0xA000_0001;

/// The byte that tells of presence, and the length.
const PART_HEAD: usize = 1 + 4;

/// What a key is made of, as the walk passes it.
#[derive(Default)]
struct Parts {
    texts: Texts,
    arguments: Option<Body>,
    workdir: Option<Body>,
    /// Where the environment block starts.
    environment: Option<usize>,
}

impl Visit for Parts {
    fn header(&mut self, header: &Header) {
        self.texts.header(header);
    }

    fn info(&mut self, info: &Info) {
        self.texts.info(info);
    }

    fn section(&mut self, name: u8, start: usize, length: usize) {
        match name {
            SECTION_ARGUMENTS => self.arguments = Some(Body::new(start + 2, length - 2)),
            SECTION_WORKDIR => self.workdir = Some(Body::new(start + 2, length - 2)),
            _ => {}
        }
    }

    fn block(&mut self, start: usize, signature: u32) {
        if signature == ENVIRONMENT {
            self.environment = Some(start);
        }
    }
}

/// The byte text of the environment block that starts there, up to its zero.
fn byte_text(shortcut: &[u8], start: usize) -> &[u8] {
    let field = &shortcut[start + 8..start + 268];
    let length = field.iter().position(|&byte| byte == 0).unwrap_or(field.len());
    &field[..length]
}

pub fn key(shortcut: &[u8], out: &mut [u8], profile: Profile) -> Result<usize, Refusal> {
    let mut parts = Parts::default();
    walk(shortcut, profile, &mut parts)?;
    let target = parts.texts.found.map(|texts| Target::of(shortcut, texts));
    let bytes_of = |body: Body| &shortcut[body.place..body.place + body.length];
    let environment = parts.environment.map(|start| byte_text(shortcut, start));
    let others = [parts.arguments.map(bytes_of), parts.workdir.map(bytes_of), environment];
    let target_length = target.as_ref().map_or(0, Target::length);
    let other_lengths = others.map(|part| part.map_or(0, <[u8]>::len));
    let length = 1 + 4 * PART_HEAD + target_length + other_lengths.iter().sum::<usize>();
    let room = out.get_mut(..length).ok_or_else(|| Refusal::nowhere(ROOM))?;
    room[0] = (parts.texts.link_flags >> 7 & 1) as u8;
    let (place, mut rest) = put_head(&mut room[1..], target.is_some(), target_length);
    if let Some(target) = target {
        target.put(place);
    }
    for (part, length) in others.iter().zip(other_lengths) {
        let (place, after) = put_head(rest, part.is_some(), length);
        if let Some(bytes) = part {
            place.copy_from_slice(bytes);
        }
        rest = after;
    }
    Ok(length)
}

/// Puts a part's presence and length; gives the room for its bytes, and the room after these.
fn put_head(room: &mut [u8], present: bool, length: usize) -> (&mut [u8], &mut [u8]) {
    let (head, rest) = room.split_at_mut(PART_HEAD);
    head[0] = present.into();
    head[1..].copy_from_slice(&(length as u32).to_le_bytes());
    rest.split_at_mut(length)
}
