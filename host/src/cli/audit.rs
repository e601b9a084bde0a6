//! The command `audit`: what is found in many files, as lines and as JSON.
use super::answer::{blind, failed, spots, with_refusal};
use super::compare::{difference_json, told};
use super::console::{Console, Outcome};
use super::input::{folder, reason, Input};
use super::run::Run;
use super::walk::{counted, Walk};
use herringnet::audit::{Audit, Auditor, Group, Member};
use herringnet::json::Json;
use herringnet::show::text::Hex;
use std::path::Path;

impl Run {
    /// Looks at all inputs, and tells what was found.
    pub fn audit(&self, inputs: Vec<Input>, console: &mut Console) {
        let mut walk = Walk::new(inputs, self.recursive, self.all_files);
        let mut auditor = Auditor::new(self.profile);
        for (done, found) in (&mut walk).enumerate() {
            match found {
                Ok(Input::File(path)) if path.is_dir() => auditor.unread(path, folder()),
                Ok(Input::File(path)) => auditor.take(path),
                Err((Input::File(path), error)) => auditor.unread(path, error),
                // Standard input is refused before.
                Ok(Input::Standard) | Err((Input::Standard, _)) => {}
            }
            console.done(done + 1);
        }
        let audit = auditor.finish();
        match self.json {
            true => objects(&audit).for_each(|object| console.record(object.to_string().into_bytes())),
            false => self.findings(&audit, console),
        }
        note(&audit, console);
        if self.recursive {
            console.say(&walk.seen);
        }
    }

    fn findings(&self, audit: &Audit, console: &mut Console) {
        for group in &audit.groups {
            console.record(self.group(group));
        }
        for file in &audit.blind {
            console.record(self.finding("blind", &file.path, spots(&file.spots).trim_start_matches("blind: ")));
        }
        for file in &audit.refused {
            let refusal = &file.refusal;
            let why = format!("{} at {}: {}", refusal.fault, refusal.position, refusal.fault.reason());
            console.record(self.finding("refused", &file.path, &why));
        }
        for file in &audit.unread {
            console.record(self.finding("unread", &file.path, &reason(&file.error)));
        }
        console.record(summary(audit).into_bytes());
    }

    fn name(&self, path: &Path) -> Vec<u8> {
        Input::File(path.to_path_buf()).name(self.zero)
    }

    fn finding(&self, kind: &str, path: &Path, why: &str) -> Vec<u8> {
        [kind.as_bytes(), b": ", &self.name(path), b": ", why.as_bytes()].concat()
    }

    /// A line about the key, one for each file, and one for each part in which it differs from the first.
    fn group(&self, group: &Group) -> Vec<u8> {
        let verdict = match group.is_one_driver() {
            true => "one key, one driver",
            false => "one key, MORE THAN ONE DRIVER POSSIBLE",
        };
        let head = format!("{}: {} with the key {}\n  ", verdict, counted(group.len(), "file"), Hex(&group.key));
        let mut lines = [head.as_bytes(), &self.name(&group.first)].concat();
        for member in &group.others {
            lines.extend([&b"\n  "[..], &self.name(&member.path)].concat());
            lines.extend(differing(member).into_bytes());
        }
        lines
    }
}

fn differing(member: &Member) -> String {
    if member.differences.is_empty() {
        return ": the same bytes".to_string();
    }
    let line = |mark: bool, part: &str, told: String| {
        format!("\n    {} {}: differs{}", if mark { "!" } else { "-" }, part, told)
    };
    member.differences.iter().map(|one| line(one.could_name, &one.part, told(one))).collect()
}

/// What the exit status has to tell.
pub fn note(audit: &Audit, console: &mut Console) {
    let found = [
        (audit.blind.is_empty(), Outcome::Blind),
        (audit.refused.is_empty(), Outcome::Refused),
        (audit.mixed() == 0, Outcome::Differs),
        (audit.unread.is_empty(), Outcome::Failed),
    ];
    found.into_iter().filter(|(is_good, _)| !is_good).for_each(|(_, outcome)| console.note(outcome));
}

/// The line that counts everything.
pub fn summary(audit: &Audit) -> String {
    let files = format!(
        "{}: {} accepted, {} refused, {} unread, {} blind, {} with values in the store",
        counted(audit.files, "file"),
        audit.accepted,
        audit.refused.len(),
        audit.unread.len(),
        audit.blind.len(),
        audit.with_values
    );
    let keys = format!(
        "{} shared by {}, {} with more than one driver possible",
        counted(audit.groups.len(), "key"),
        counted(audit.sharing(), "file"),
        counted(audit.mixed(), "key")
    );
    format!("audit: {}; {}", files, keys)
}

/// An object for each thing that was found, and one that counts.
fn objects(audit: &Audit) -> impl Iterator<Item = Json> + '_ {
    let named = |path: &Path| Input::File(path.to_path_buf());
    let groups = audit.groups.iter().map(group);
    let blinds = audit.blind.iter().map(move |file| blind(&named(&file.path), &file.spots));
    let refused = audit.refused.iter().map(move |file| with_refusal(&named(&file.path), &file.refusal));
    let unread = audit.unread.iter().map(move |file| failed(&named(&file.path), &reason(&file.error)));
    groups.chain(blinds).chain(refused).chain(unread).chain([counts(audit)])
}

fn group(group: &Group) -> Json {
    let first = Json::Object(vec![Input::File(group.first.clone()).member()]);
    let others = group.others.iter().map(|member| {
        let differences = member.differences.iter().map(difference_json).collect();
        Json::Object(vec![
            Input::File(member.path.clone()).member(),
            ("same_driver".to_string(), Json::Bool(member.is_same_driver())),
            ("differences".to_string(), Json::Array(differences)),
        ])
    });
    Json::object([
        ("status", Json::string("shared")),
        ("key", Json::string(Hex(&group.key))),
        ("one_driver", Json::Bool(group.is_one_driver())),
        ("first", first),
        ("others", Json::Array(others.collect())),
    ])
}

fn counts(audit: &Audit) -> Json {
    let number = |count: usize| Json::number(count as u64);
    Json::object([
        ("status", Json::string("audited")),
        ("clean", Json::Bool(audit.is_clean())),
        ("files", number(audit.files)),
        ("accepted", number(audit.accepted)),
        ("refused", number(audit.refused.len())),
        ("unread", number(audit.unread.len())),
        ("blind", number(audit.blind.len())),
        ("with_values", number(audit.with_values)),
        ("shared_keys", number(audit.groups.len())),
        ("sharing_files", number(audit.sharing())),
        ("mixed_keys", number(audit.mixed())),
    ])
}
