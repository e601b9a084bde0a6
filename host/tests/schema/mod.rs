//! A reader of JSON, and of as much of JSON Schema as the schema in docs uses.
mod parse;

pub use parse::{parse, Value};

/// The schema of what `--json` prints.
pub fn schema() -> Value {
    parse(include_str!("../../../docs/herringnet.schema.json")).unwrap()
}

/// Why a value does not fit the definition of this name, if it does not.
pub fn misfit(schema: &Value, definition: &str, value: &Value) -> Option<String> {
    let definition = schema.get("$defs").and_then(|all| all.get(definition)).unwrap();
    Check { schema }.of(definition, value).err()
}

/// Why a value does not fit the schema as a whole, if it does not.
pub fn misfit_of_all(schema: &Value, value: &Value) -> Option<String> {
    Check { schema }.of(schema, value).err()
}

struct Check<'a> {
    schema: &'a Value,
}

impl Check<'_> {
    fn of(&self, rule: &Value, value: &Value) -> Result<(), String> {
        for (word, said) in rule.members() {
            let fits = match word.as_str() {
                "$schema" | "$defs" | "title" => true,
                "$ref" => return self.of(self.named(said.text()), value),
                "type" => types(said).iter().any(|kind| is_of(kind, value)),
                "const" => value == said,
                "enum" => said.values().contains(value),
                "pattern" => matches(said.text(), value.text()),
                "minimum" => value.number() >= said.number(),
                "maximum" => value.number() <= said.number(),
                "anyOf" => said.values().iter().any(|one| self.of(one, value).is_ok()),
                "oneOf" => said.values().iter().filter(|one| self.of(one, value).is_ok()).count() == 1,
                "required" => said.values().iter().all(|name| value.get(name.text()).is_some()),
                "additionalProperties" => known(rule, value),
                "properties" => return_first(said.members().iter().map(|(name, rule)| self.member(name, rule, value)))?,
                "items" => return_first(value.values().iter().map(|one| self.of(said, one)))?,
                _ => panic!("the schema has a word that this test does not know: {}", word),
            };
            if !fits {
                return Err(format!("{:?} breaks {}: {:?}", value, word, said));
            }
        }
        Ok(())
    }

    fn member(&self, name: &str, rule: &Value, value: &Value) -> Result<(), String> {
        value.get(name).map_or(Ok(()), |member| self.of(rule, member).map_err(|why| format!("{}: {}", name, why)))
    }

    fn named(&self, link: &str) -> &Value {
        self.schema.get("$defs").and_then(|all| all.get(link.strip_prefix("#/$defs/").unwrap())).unwrap()
    }
}

/// True, or the first of several misfits.
fn return_first(mut all: impl Iterator<Item = Result<(), String>>) -> Result<bool, String> {
    all.find(Result::is_err).unwrap_or(Ok(())).map(|()| true)
}

fn types(said: &Value) -> Vec<&str> {
    match said {
        Value::Array(kinds) => kinds.iter().map(Value::text).collect(),
        kind => vec![kind.text()],
    }
}

fn is_of(kind: &str, value: &Value) -> bool {
    match value {
        Value::Null => kind == "null",
        Value::Bool(_) => kind == "boolean",
        Value::Number(_) => kind == "integer",
        Value::String(_) => kind == "string",
        Value::Array(_) => kind == "array",
        Value::Object(_) => kind == "object",
    }
}

/// Whether all members have a rule.
fn known(rule: &Value, value: &Value) -> bool {
    let rules = rule.get("properties").unwrap();
    value.members().iter().all(|(name, _)| rules.get(name).is_some())
}

/// The patterns of the schema.
fn matches(pattern: &str, text: &str) -> bool {
    let lower = |text: &str| text.bytes().all(|byte| matches!(byte, b'0'..=b'9' | b'a'..=b'f'));
    let upper = |text: &str| text.bytes().all(|byte| matches!(byte, b'0'..=b'9' | b'A'..=b'F'));
    match pattern {
        "^([0-9a-f]{2})*$" => lower(text) && text.len() % 2 == 0,
        "^[0-9a-f]{16}$" => lower(text) && text.len() == 16,
        "^[0-9A-F]{8}$" => upper(text) && text.len() == 8,
        r"^\{[0-9A-F]{8}-[0-9A-F]{4}-[0-9A-F]{4}-[0-9A-F]{4}-[0-9A-F]{12}\}$" => {
            let inside = text.strip_prefix('{').and_then(|rest| rest.strip_suffix('}')).unwrap_or_default();
            let parts: Vec<&str> = inside.split('-').collect();
            let lengths: Vec<usize> = parts.iter().map(|part| part.len()).collect();
            lengths == [8, 4, 4, 4, 12] && parts.iter().all(|part| upper(part))
        }
        _ => panic!("the schema has a pattern that this test does not know: {}", pattern),
    }
}
