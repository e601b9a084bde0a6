//! Where shortcuts come from, and the names that they are called by.
use super::streams;
use herringnet::json::Json;
use herringnet::show::text::{Hex, Name};
use herringnet::LONGEST;
use std::fmt;
use std::fs::File;
use std::io::{self, ErrorKind, Read};
use std::os::unix::ffi::{OsStrExt, OsStringExt};
use std::path::PathBuf;

/// Where a shortcut comes from.
pub enum Input {
    /// Standard input.
    Standard,
    /// A file.
    File(PathBuf),
}

impl Input {
    /// The input that a word of the command line names.
    pub fn of(word: std::ffi::OsString) -> Input {
        match word.as_bytes() {
            b"-" => Input::Standard,
            _ => Input::File(PathBuf::from(word)),
        }
    }

    /// The bytes, but at most one more than a shortcut may have: that one settles that it is too long.
    pub fn bytes(&self) -> io::Result<Vec<u8>> {
        self.first(LONGEST as u64 + 1)
    }

    /// All bytes: a shelf has many shortcuts in it, and every byte of a file counts for its answer.
    pub fn all_bytes(&self) -> io::Result<Vec<u8>> {
        self.first(u64::MAX)
    }

    /// The files that a list names, each name ended by this byte.
    pub fn listed(&self, end: u8) -> io::Result<Vec<Input>> {
        let mut bytes = self.first(u64::MAX)?;
        if bytes.last() == Some(&end) {
            bytes.pop();
        } else if bytes.is_empty() {
            return Ok(Vec::new());
        }
        let names = bytes.split(|&byte| byte == end);
        Ok(names.map(|name| Input::File(PathBuf::from(std::ffi::OsString::from_vec(name.to_vec())))).collect())
    }

    fn first(&self, most: u64) -> io::Result<Vec<u8>> {
        let mut bytes = Vec::new();
        let source = match self {
            Input::Standard => streams::input()?,
            Input::File(path) if path.is_dir() => return Err(folder()),
            Input::File(path) => File::open(path)?,
        };
        source.take(most).read_to_end(&mut bytes)?;
        Ok(bytes)
    }

    /// The name as bytes: as it is where raw ones are asked for, else so that it is told from every other.
    pub fn name(&self, raw: bool) -> Vec<u8> {
        match self {
            Input::File(path) if raw => path.as_os_str().as_bytes().to_vec(),
            _ => self.to_string().into_bytes(),
        }
    }

    /// The name in JSON: a string, or hex where it is no UTF-8.
    pub fn member(&self) -> (String, Json) {
        let (name, value) = match self {
            Input::Standard => ("standard_input", Json::Bool(true)),
            Input::File(path) => match path.to_str() {
                Some(text) => ("file", Json::string(text)),
                None => ("file_hex", Json::string(Hex(path.as_os_str().as_bytes()))),
            },
        };
        (name.to_string(), value)
    }
}

impl fmt::Display for Input {
    fn fmt(&self, f: &mut fmt::Formatter<'_>) -> fmt::Result {
        match self {
            Input::Standard => f.write_str("<standard input>"),
            Input::File(path) => Name(path.as_os_str().as_bytes()).fmt(f),
        }
    }
}

/// What is wrong with a folder that was named as a file.
pub fn folder() -> io::Error {
    io::Error::new(ErrorKind::Other, "it is a folder; -r goes through folders")
}

/// What went wrong, without the system's own number for it.
pub fn reason(error: &io::Error) -> String {
    let text = error.to_string();
    text.split(" (os error").next().unwrap_or(&text).to_string()
}
