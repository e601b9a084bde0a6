//! The options of `set` as they were given, made into what is to be set.
use super::asks::{Ask, Naming};
use super::words::{hex, hotkey_number, show_number};
use super::{New, Setting, Target};
use herringnet::PathTexts;
use std::ffi::{OsStr, OsString};
use std::os::unix::ffi::OsStrExt;

/// What has been given, in the order of the words.
#[derive(Default)]
pub struct Given(Vec<(Ask, OsString)>);

impl Given {
    pub fn take(&mut self, ask: Ask, value: OsString) {
        self.0.push((ask, value));
    }

    /// Whether nothing is to be written.
    pub fn is_dry(&self) -> bool {
        self.value(Ask::DryRun).is_some()
    }

    fn value(&self, ask: Ask) -> Option<&OsStr> {
        self.0.iter().find(|(other, _)| *other == ask).map(|(_, value)| &value[..])
    }

    /// What is to be set, if what was given fits together.
    pub fn setting(&self) -> Result<Setting, String> {
        if let Some(why) = self.clash() {
            return Err(why);
        }
        let is_settled = |naming: &Naming| self.0.iter().any(|(ask, _)| ask.about() == naming.about());
        let settled = Naming::ALL.into_iter().filter(is_settled).collect();
        let mut setting = Setting { settled, ..Setting::default() };
        for (ask, value) in &self.0 {
            self.put(*ask, value, &mut setting)?;
        }
        Ok(setting)
    }

    /// The first option that does not fit together with the others.
    fn clash(&self) -> Option<String> {
        for (place, (ask, _)) in self.0.iter().enumerate() {
            let other = self.0[..place].iter().find(|(other, _)| other.about() == ask.about());
            match (other, ask.beside()) {
                (Some((other, _)), _) if other == ask => return Some(format!("{} may stand once", ask.word())),
                (Some((other, _)), _) => return Some(format!("{} excludes {}", other.word(), ask.word())),
                (None, Some(beside)) if self.value(beside).is_none() => {
                    return Some(format!("{} goes with {}", ask.word(), beside.word()));
                }
                _ => {}
            }
        }
        let changes = self.0.iter().any(|(ask, _)| ask.changes());
        (!changes).then(|| "set needs a part to set".to_string())
    }

    fn put(&self, ask: Ask, value: &OsStr, setting: &mut Setting) -> Result<(), String> {
        match ask {
            Ask::Text(name) => setting.strings.push((name, New::Text(utf8(ask, value)?.to_string()))),
            Ask::TextHex(name) => setting.strings.push((name, New::Bytes(bytes(ask, value)?))),
            Ask::NoText(name) => setting.strings.push((name, New::Nothing)),
            Ask::Path(kind) => setting.paths.push((kind, Some(self.texts(ask, value, Ask::PathBytes(kind))?))),
            Ask::NoPath(kind) => setting.paths.push((kind, None)),
            Ask::IconIndex => {
                let number = |word: &str| word.parse().ok();
                setting.icon_index = Some(made(ask, value, number, "a number from -2147483648 to 2147483647")?);
            }
            Ask::HotKey => {
                setting.hotkey =
                    Some(made(ask, value, hotkey_number, "a hot key as CTRL+ALT+F, none or a number as 0x0646")?);
            }
            Ask::NoHotKey => setting.hotkey = Some(0),
            Ask::Show => {
                setting.command = Some(made(ask, value, show_number, "normal, maximized, minimized or a number")?);
            }
            Ask::Target => {
                let texts = self.texts(ask, value, Ask::TargetBytes)?;
                setting.target = Some(Target { texts, own_bytes: self.value(Ask::TargetBytes).is_some() });
            }
            Ask::NoItems => setting.no_items = true,
            Ask::NoNetwork => setting.no_network = true,
            Ask::ExpectKey => setting.expect_key = Some(bytes(ask, value)?),
            Ask::DryRun => setting.dry_run = true,
            // Bytes are looked at with their text, and what is kept is settled.
            Ask::PathBytes(_) | Ask::TargetBytes | Ask::Keep(_) => {}
        }
        Ok(())
    }

    /// A text as bytes and as units.
    fn texts(&self, ask: Ask, text: &OsStr, beside: Ask) -> Result<PathTexts, String> {
        let (text, word) = (utf8(ask, text)?, ask.word());
        match self.value(beside) {
            Some(bytes) => Ok(PathTexts::beside(bytes.as_bytes().to_vec(), text)),
            None => PathTexts::encode(text)
                .map_err(|misfit| format!("{}: {}; {} gives the bytes", word, misfit, beside.word())),
        }
    }
}

fn utf8(ask: Ask, value: &OsStr) -> Result<&str, String> {
    value.to_str().ok_or_else(|| format!("the value of {} is no UTF-8", ask.word()))
}

/// A value made from its word, which has to be what is said.
fn made<T>(ask: Ask, value: &OsStr, of: impl Fn(&str) -> Option<T>, what: &str) -> Result<T, String> {
    value.to_str().and_then(of).ok_or_else(|| format!("{} takes {}", ask.word(), what))
}

fn bytes(ask: Ask, value: &OsStr) -> Result<Vec<u8>, String> {
    made(ask, value, hex, "hex, two digits for each byte")
}
