//! The five parts of a key.
use super::parts::{groups, Group, Names, Part};
use super::value::Value;
use crate::record::Record;
use crate::{target_under, Profile, Refusal};

/// The parts of a shortcut's key, in their order (FORMAT: Key parts).
pub(super) fn group(shortcut: &[u8], profile: Profile) -> Result<(Record<'_>, Group<'_>), Refusal> {
    let (record, groups) = groups(shortcut, profile)?;
    let find = |wanted: &str, called: &str| {
        let part = groups.iter().flat_map(|group| &group.parts).find(|part| part.name == wanted);
        let (value, at) = part.map_or((None, None), |part| (part.value.clone(), part.at));
        Part { name: called.to_string(), value, at, names: Names::Driver }
    };
    let unicode = Value::Number(record.header.is_unicode().into(), kind);
    // The target is joined of two texts, and so stands at no place.
    let target = target_under(shortcut, profile).ok().map(|text| Value::Bytes(text.into()));
    let parts = vec![
        Part { name: "LinkFlags bit 7".to_string(), value: Some(unicode), at: Some(20), names: Names::Driver },
        Part { name: "target text".to_string(), value: target, at: None, names: Names::Driver },
        find("arguments", "arguments"),
        find("working directory", "working directory"),
        find("text of EnvironmentVariableDataBlock", "environment"),
    ];
    // There is no byte of a key that none of them has.
    Ok((record, Group { name: "key".to_string(), is_block: false, start: 0, bytes: &[], parts }))
}

/// What bit 7 says of arguments and working directory.
fn kind(bit: u64) -> String {
    match bit {
        0 => "clear, texts of bytes".to_string(),
        _ => "set, texts in Unicode".to_string(),
    }
}
