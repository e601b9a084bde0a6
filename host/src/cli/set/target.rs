//! The target: local path, suffix and their Unicode twins set together, and the other parts that can name one.
use super::asks::{Ask, Naming};
use super::opened::Part;
use super::{Setting, Target};
use herringnet::record::{Info, InfoUnicode, Label, Local};
use herringnet::Record;

/// LinkFlags bit 8, by which LinkInfo is not asked for the target.
const NO_INFO: u32 = 1 << 8;

/// The volume of a local path of which nothing is known.
const UNKNOWN: Local = Local { drive: 0, serial: 0, label: Label::Byte(b""), path: b"" };

impl Target {
    /// Gives a record this target.
    pub fn put<'a>(&'a self, record: &mut Record<'a>) {
        let mut info = record.info.take().unwrap_or_default();
        info.local = Some(Local { path: &self.texts.bytes, ..info.local.unwrap_or(UNKNOWN) });
        info.suffix = b"";
        // Bytes of one's own leave TEXT no other place than the Unicode twin.
        if info.unicode.is_some() || self.own_bytes {
            let further = info.unicode.map_or(&b""[..], |unicode| unicode.further);
            info.unicode = Some(InfoUnicode { local: &self.texts.unicode, suffix: b"", further });
        }
        record.info = Some(info);
        record.header.flags &= !NO_INFO;
    }

    /// Whether a record has this target already, in both kinds of text.
    pub fn is_that_of(&self, record: &Record) -> bool {
        let info = match &record.info {
            Some(info) if record.header.flags & NO_INFO == 0 => info,
            _ => return false,
        };
        let unicode = match (&info.unicode, self.own_bytes) {
            (Some(unicode), _) => joined([unicode.local, unicode.suffix], b"\\\0") == self.texts.unicode,
            (None, own_bytes) => !own_bytes,
        };
        unicode && bytes_of(info).as_deref() == Some(&self.texts.bytes[..])
    }
}

fn bytes_of(info: &Info) -> Option<Vec<u8>> {
    info.local.as_ref().map(|local| joined([local.path, info.suffix], b"\\"))
}

/// Path and suffix, and a separator where one is missing (FORMAT: Target bytes).
fn joined([path, suffix]: [&[u8]; 2], separator: &[u8]) -> Vec<u8> {
    let whole = path.len() % separator.len() == 0 && path.ends_with(separator);
    let missing = !path.is_empty() && !suffix.is_empty() && !whole;
    [path, if missing { separator } else { b"" }, suffix].concat()
}

impl Naming {
    /// The names of the parts that it stands for.
    fn parts(self) -> &'static [&'static str] {
        match self {
            Naming::Items => &["item list", "item list of block A000000C"],
            Naming::Network => &["net name"],
            Naming::Relative => &["relative path"],
            Naming::Environment => &["environment text", "Unicode environment text"],
            Naming::Darwin => &["Darwin text"],
        }
    }

    /// The parts that are there and name another target than this one.
    fn still(self, old: &[Part], target: &Target) -> Vec<String> {
        let new = match self {
            Naming::Environment => vec![&target.texts.bytes, &target.texts.unicode],
            _ => Vec::new(),
        };
        let names = self.parts().iter().enumerate();
        let there = names.filter_map(|(place, name)| {
            let part = old.iter().find(|part| part.name == *name)?;
            let bytes = part.bytes.as_ref()?;
            (new.get(place) != Some(&bytes)).then(|| format!("{}, {}", name, part.shown))
        });
        there.collect()
    }
}

impl Setting {
    /// Why the target is not set: parts that still name the old one, and of which nothing was said.
    pub(super) fn unsettled(&self, old: &[Part], target: &Target) -> Option<String> {
        let open = Naming::ALL.into_iter().filter(|naming| !self.settled.contains(naming));
        let named: Vec<String> = open
            .filter_map(|naming| {
                let parts = naming.still(old, target);
                let (without, keep) = (naming.without().word(), Ask::Keep(naming).word());
                (!parts.is_empty()).then(|| format!("{} ({} or {})", parts.join(" and "), without, keep))
            })
            .collect();
        (!named.is_empty()).then(|| format!("not set: the old target is still named by {}", named.join("; ")))
    }
}
