//! JSON read strictly: nothing may follow a value, no name may stand twice, no control character may stand unescaped.

#[derive(Clone, Debug, PartialEq)]
pub enum Value {
    Null,
    Bool(bool),
    Number(i64),
    String(String),
    Array(Vec<Value>),
    Object(Vec<(String, Value)>),
}

impl Value {
    pub fn get(&self, name: &str) -> Option<&Value> {
        self.members().iter().find(|(member, _)| member == name).map(|(_, value)| value)
    }

    pub fn members(&self) -> &[(String, Value)] {
        match self {
            Value::Object(members) => members,
            _ => &[],
        }
    }

    pub fn values(&self) -> &[Value] {
        match self {
            Value::Array(values) => values,
            _ => &[],
        }
    }

    pub fn text(&self) -> &str {
        match self {
            Value::String(text) => text,
            _ => "",
        }
    }

    pub fn number(&self) -> i64 {
        match self {
            Value::Number(number) => *number,
            _ => panic!("{:?} is no number", self),
        }
    }
}

/// The value that a text is, or `None`.
pub fn parse(text: &str) -> Option<Value> {
    let mut reader = Reader { rest: text.trim_end_matches('\n') };
    let value = reader.value()?;
    reader.rest.is_empty().then_some(value)
}

struct Reader<'a> {
    rest: &'a str,
}

impl Reader<'_> {
    fn skip(&mut self) {
        self.rest = self.rest.trim_start_matches([' ', '\n']);
    }

    /// Passes over these characters, if they are next.
    fn take(&mut self, text: &str) -> Option<()> {
        self.skip();
        self.rest = self.rest.strip_prefix(text)?;
        Some(())
    }

    fn value(&mut self) -> Option<Value> {
        self.skip();
        match self.rest.chars().next()? {
            '{' => self.object(),
            '[' => self.array(),
            '"' => self.string().map(Value::String),
            'n' => self.take("null").map(|()| Value::Null),
            't' => self.take("true").map(|()| Value::Bool(true)),
            'f' => self.take("false").map(|()| Value::Bool(false)),
            _ => self.number(),
        }
    }

    fn number(&mut self) -> Option<Value> {
        let end = self.rest.find(|c: char| !c.is_ascii_digit() && c != '-').unwrap_or(self.rest.len());
        let (digits, rest) = self.rest.split_at(end);
        self.rest = rest;
        let is_plain = !digits.trim_start_matches('-').starts_with('0') || digits == "0";
        digits.parse().ok().filter(|_| is_plain).map(Value::Number)
    }

    fn object(&mut self) -> Option<Value> {
        self.take("{")?;
        let mut members: Vec<(String, Value)> = Vec::new();
        while self.take("}").is_none() {
            if !members.is_empty() {
                self.take(",")?;
            }
            self.skip();
            let name = self.string()?;
            self.take(":")?;
            if members.iter().any(|(other, _)| *other == name) {
                return None;
            }
            members.push((name, self.value()?));
        }
        Some(Value::Object(members))
    }

    fn array(&mut self) -> Option<Value> {
        self.take("[")?;
        let mut values = Vec::new();
        while self.take("]").is_none() {
            if !values.is_empty() {
                self.take(",")?;
            }
            values.push(self.value()?);
        }
        Some(Value::Array(values))
    }

    fn string(&mut self) -> Option<String> {
        self.rest = self.rest.strip_prefix('"')?;
        let mut units: Vec<u16> = Vec::new();
        loop {
            let c = self.rest.chars().next()?;
            self.rest = &self.rest[c.len_utf8()..];
            match c {
                '"' => return String::from_utf16(&units).ok(),
                '\\' => units.push(self.escape()?),
                c if c.is_control() => return None,
                c => units.extend(c.encode_utf16(&mut [0; 2]).iter()),
            }
        }
    }

    fn escape(&mut self) -> Option<u16> {
        let c = self.rest.chars().next()?;
        self.rest = &self.rest[c.len_utf8()..];
        match c {
            '"' | '\\' => Some(c as u16),
            'u' => {
                let unit = u16::from_str_radix(self.rest.get(..4)?, 16).ok()?;
                self.rest = &self.rest[4..];
                Some(unit)
            }
            _ => None,
        }
    }
}
