//! `diff` and `key --diff`: two shortcuts part by part.
use super::answer::{Answer, Refused};
use super::command::Command;
use super::console::{Console, Outcome};
use super::input::Input;
use super::run::Run;
use herringnet::difference::{After, Compared, Difference, Parts};
use herringnet::json::Json;
use herringnet::key_under;

impl Run {
    /// Compares two inputs, if both can be read and are accepted.
    pub fn compare(&self, inputs: &[Input], console: &mut Console) {
        let mut read = Vec::new();
        for input in inputs {
            match input.bytes() {
                Ok(bytes) => read.push((input, bytes)),
                Err(error) => self.unread(input, &error, console),
            }
        }
        let taken: Vec<(&Input, Parts)> =
            read.iter().filter_map(|(input, bytes)| Some((*input, self.parts(input, bytes, console)?))).collect();
        if let ([(one, parts), (other, others)], [first, second]) = (&taken[..], &read[..]) {
            let is_one_key = key_under(&first.1, self.profile) == key_under(&second.1, self.profile);
            let compared = parts.compared(others);
            match self.json {
                true => console.record(object([one, other], &compared, is_one_key).to_string().into_bytes()),
                false => self.lines(&compared, is_one_key, console),
            }
            if compared.iter().any(is_different) {
                console.note(Outcome::Differs);
            }
        }
    }

    /// The parts of an input, of its key alone or all; `None` where it is refused, which is then told.
    fn parts<'a>(&self, input: &Input, shortcut: &'a [u8], console: &mut Console) -> Option<Parts<'a>> {
        let parts = match self.command {
            Command::Key => Parts::of_key_under(shortcut, self.profile),
            _ => Parts::read_under(shortcut, self.profile),
        };
        match parts {
            Ok(parts) => {
                let key = Answer::to(self.command, shortcut, self.profile).and_then(Result::ok);
                Some(parts).filter(|_| !key.map_or(false, |answer| self.refuses(input, &answer, console)))
            }
            Err(refusal) => {
                let refused = Refused::new(self.command, (shortcut, self.profile), refusal);
                self.answer(input, Err(refused), console);
                None
            }
        }
    }

    fn lines(&self, compared: &[Compared], is_one_key: bool, console: &mut Console) {
        compared.iter().for_each(|compared| console.record(line(compared).into_bytes()));
        let different = compared.iter().filter(|compared| is_different(compared)).count();
        let keys = if is_one_key { "the keys are equal" } else { "the keys differ" };
        let last = match (self.command, different) {
            (Command::Key, _) => keys.to_string(),
            (_, 0) => format!("equal in all {} parts and every byte; {}", compared.len(), keys),
            _ => format!("different in {} of {} parts; {}", different, compared.len(), keys),
        };
        console.record(last.into_bytes());
    }
}

fn is_different(compared: &Compared) -> bool {
    matches!(compared, Compared::Differs(_))
}

fn line(compared: &Compared) -> String {
    match compared {
        Compared::Same { part, words } => format!("{}: same: {}", part, words.as_deref().unwrap_or("absent")),
        Compared::Differs(difference) => format!("{}: differs{}", difference.part, told(difference)),
    }
}

/// The place of a difference, where it has one, and both values.
pub fn told(difference: &Difference) -> String {
    match difference.place.to_string() {
        place if place.is_empty() => format!(": {}", difference.words()),
        place => format!(" {}: {}", place, difference.words()),
    }
}

fn object([one, other]: [&Input; 2], compared: &[Compared], is_one_key: bool) -> Json {
    let named = |input: &Input| Json::Object(vec![input.member()]);
    Json::object([
        ("first", named(one)),
        ("second", named(other)),
        ("status", Json::string("compared")),
        ("equal", Json::Bool(!compared.iter().any(is_different))),
        ("equal_keys", Json::Bool(is_one_key)),
        ("parts", Json::Array(compared.iter().map(part).collect())),
    ])
}

fn part(compared: &Compared) -> Json {
    match compared {
        Compared::Same { part, words } => Json::object([
            ("part", Json::string(part)),
            ("same", Json::Bool(true)),
            ("value", Json::string_if(words.as_deref())),
        ]),
        Compared::Differs(difference) => difference_json(difference),
    }
}

/// A difference in JSON.
pub fn difference_json(difference: &Difference) -> Json {
    let (bytes, characters) = match difference.place.after {
        Some(After::Bytes(count)) => (Json::number(count as u64), Json::Null),
        Some(After::Characters(count, _)) => (Json::Null, Json::number(count as u64)),
        None => (Json::Null, Json::Null),
    };
    let [first_at, second_at] = difference.place.at.map(|at| at.map_or(Json::Null, |at| Json::number(at as u64)));
    Json::object([
        ("part", Json::string(&difference.part)),
        ("same", Json::Bool(false)),
        ("could_name_driver", Json::Bool(difference.could_name)),
        ("after_bytes", bytes),
        ("after_characters", characters),
        ("first_at", first_at),
        ("second_at", second_at),
        ("first", Json::string_if(difference.one.as_deref())),
        ("second", Json::string_if(difference.other.as_deref())),
    ])
}
