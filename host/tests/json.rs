//! JSON: every line of every command fits the schema in docs, and has all that `show` says.
mod common;
mod schema;

use common::everything::{blocks, everything};
use common::pairs::pairs;
use common::shortcuts::{z, Shortcuts};
use common::{rows, text, SAMPLE};
use herringnet::record::{Header, Record};
use herringnet::{check, Text};
use schema::{misfit, misfit_of_all, parse, schema, Value};
use std::collections::BTreeSet;

const COMMANDS: [&str; 7] = ["check", "list", "target", "key", "show", "hex", "store"];

/// The lines as values.
fn values(out: &[u8]) -> Vec<Value> {
    text(out).lines().map(|line| parse(line).unwrap_or_else(|| panic!("no JSON: {}", line))).collect()
}

/// The definition that a line of a command has to fit.
fn definition<'a>(command: &'a str, value: &'a Value) -> &'a str {
    match value.get("status").unwrap().text() {
        "ok" if command == "hex" => "hex_lines",
        "ok" => command,
        status => status,
    }
}

#[test]
fn every_line_fits_the_schema() {
    let (s, schema) = (Shortcuts::none("json_rows"), schema());
    let accepted: Vec<&[u8]> = rows().into_iter().filter(|row| check(row).is_ok()).collect();
    let refused: Vec<&[u8]> = rows().into_iter().filter(|row| check(row).is_err()).step_by(9).collect();
    for (number, row) in accepted.iter().chain(&refused).enumerate() {
        s.put(&format!("{:04}.lnk", number), row);
    }
    for command in COMMANDS {
        let said = s.run(&[command, "--json", "-r", ".", "none.lnk"]);
        let values = values(&said.out);
        assert_eq!((said.status, values.len()), (3, accepted.len() + refused.len() + 1));
        for value in &values {
            let wrong = misfit(&schema, definition(command, value), value).or_else(|| misfit_of_all(&schema, value));
            assert_eq!(wrong, None, "{}", command);
        }
        let count = |status| values.iter().filter(|value| value.get("status").unwrap().text() == status).count();
        assert_eq!(count("failed"), 1);
        assert!(count("refused") >= refused.len() && count("ok") > 100);
    }
}

#[test]
fn the_lines_of_the_sample() {
    let s = Shortcuts::new("json_sample");
    s.run(&["check", "--json", "a.lnk"]).is(0, "{\"file\":\"a.lnk\",\"status\":\"ok\",\"length\":459}\n", "");
    let section = |name: &str, start: u32, length: u32| {
        format!("{{\"name\":\"{}\",\"start\":{},\"length\":{}}}", name, start, length)
    };
    let sections = [section("header", 0, 76), section("end", 76, 4)].join(",");
    let list = format!("{{\"file\":\"z.lnk\",\"status\":\"ok\",\"length\":80,\"sections\":[{}]}}\n", sections);
    s.run(&["list", "--json", "z.lnk"]).is(0, &list, "");
    let target = "{\"unicode\":false,\"hex\":\"433a5c746573745c612e747874\",\"text\":\"C:\\\\test\\\\a.txt\"}";
    let line = format!("{{\"file\":\"a.lnk\",\"status\":\"ok\",\"target\":{}}}\n", target);
    s.run(&["target", "--json", "a.lnk"]).is(0, &line, "");
    let line = format!("{{\"file\":\"z.lnk\",\"status\":\"ok\",\"key\":\"{}\"}}\n", "0".repeat(42));
    s.run(&["key", "--json", "z.lnk"]).is(0, &line, "");
    s.run(&["show", "--json", "a.lnk"]).is(0, include_str!("shown/a.json"), "");
}

#[test]
fn refusals_and_failures_are_objects() {
    let s = Shortcuts::new("json_refused");
    let refusal = "{\"number\":2,\"name\":\"CUT\",\"position\":76,\
                   \"reason\":\"it is cut off inside a field or a part\"";
    let field = "{\"structure\":\"TerminalBlock\",\"start\":76,\"name\":\"TerminalBlock\",\"bytes\":\"000000\",\
                 \"wrong\":\"is cut off: 3 of its 4 bytes stand before the file's end\"}";
    let none = "{\"file\":\"none.lnk\",\"status\":\"failed\",\"error\":\"No such file or directory\"}\n";
    // The lines that `hex` adds are tested with it.
    for command in COMMANDS.into_iter().filter(|command| *command != "hex") {
        let more = match command {
            "check" => format!(",\"section\":\"end\",\"start\":76,\"field\":{}", field),
            _ => String::new(),
        };
        let cut = format!("{{\"file\":\"cut.lnk\",\"status\":\"refused\",\"refusal\":{}{}}}}}\n", refusal, more);
        s.run(&[command, "--json", "cut.lnk"]).is(1, &cut, "");
        s.run(&[command, "--json", "none.lnk", "cut.lnk"]).is(3, &format!("{}{}", none, cut), "");
    }
}

#[test]
fn blind_keys_say_so() {
    let (s, schema) = (Shortcuts::new("json_blind"), schema());
    s.put("rv32.lnk", &pairs()[0][0]);
    s.run(&["shelf", "build", "-o", "x.shelf", "z.lnk", "rv32.lnk"]);
    let spot = "\"spot\":\"NAMELESS\",\"parts\":[\"item list\"]}]}\n";
    let key = "0".repeat(42);
    let rows: [(&[&str], i32, String); 4] = [
        (
            &["key", "--json", "rv32.lnk"],
            0,
            format!("{{\"file\":\"rv32.lnk\",\"status\":\"ok\",\"key\":\"{}\",\"blind\":[{{{}", key, spot),
        ),
        (
            &["key", "--json", "--no-blind", "rv32.lnk"],
            4,
            format!("{{\"file\":\"rv32.lnk\",\"status\":\"blind\",\"blind\":[{{{}", spot),
        ),
        (
            &["key", "--json", "--shelf", "x.shelf"],
            0,
            format!(
                "{{\"file\":\"x.shelf\",\"status\":\"ok\",\"keys\":[\"{}\",\"{0}\"],\"blind\":[{{\"entry\":1,{}",
                key, spot
            ),
        ),
        (
            &["key", "--json", "--shelf", "--no-blind", "x.shelf"],
            4,
            format!("{{\"file\":\"x.shelf\",\"status\":\"blind\",\"blind\":[{{\"entry\":1,{}", spot),
        ),
    ];
    for (words, status, line) in rows {
        let said = s.run(words);
        assert_eq!((said.status, text(&said.out)), (status, &line[..]));
        // Who reads only the key is told too.
        assert!(said.err.contains("blind: no text in the key names the driver (item list)"), "{}", said.err);
        assert_eq!(misfit_of_all(&schema, &values(&said.out)[0]), None);
    }
}

#[test]
fn two_shortcuts_compared_are_an_object() {
    let (s, schema) = (Shortcuts::new("json_diff"), schema());
    s.put("all.lnk", &everything(&blocks()));
    for words in [["diff", "--json", "a.lnk", "all.lnk"], ["diff", "--json", "all.lnk", "all.lnk"]] {
        let said = s.run(&words);
        let value = values(&said.out).remove(0);
        assert_eq!(misfit(&schema, "compared", &value).or_else(|| misfit_of_all(&schema, &value)), None);
        assert_eq!(value.get("equal"), Some(&Value::Bool(said.status == 0)));
        // The same parts as on the lines, in the same order.
        let lines = s.run(&[words[0], words[2], words[3]]);
        let lines: Vec<&str> = text(&lines.out).lines().collect();
        let parts = value.get("parts").unwrap().values();
        assert_eq!(lines.len(), parts.len() + 1);
        for (line, part) in lines.iter().zip(parts) {
            let same = part.get("same") == Some(&Value::Bool(true));
            let begin = format!("{}: {}", part.get("part").unwrap().text(), if same { "same: " } else { "differs" });
            assert!(line.starts_with(&begin), "{} is not in {}", begin, line);
        }
    }
    let said = s.run(&["key", "--diff", "--json", "a.lnk", "z.lnk"]);
    let value = values(&said.out).remove(0);
    assert_eq!((said.status, misfit(&schema, "compared", &value)), (5, None));
    assert_eq!(value.get("parts").unwrap().values().len(), 5);
    let refused = s.run(&["diff", "--json", "a.lnk", "cut.lnk"]);
    assert_eq!((refused.status, misfit(&schema, "refused", &values(&refused.out)[0])), (1, None));
}

#[test]
fn no_field_is_null() {
    let s = Shortcuts::new("json_no_field");
    s.put("trail.lnk", &[z(), vec![7]].concat());
    let lines = values(&s.run(&["check", "--json", "long.lnk", "trail.lnk"]).out);
    let found = lines.iter().map(|line| line.get("refusal").unwrap());
    let found: Vec<_> =
        found.map(|refusal| ["section", "start", "field"].map(|name| refusal.get(name).cloned())).collect();
    let expected = |name: &str, start| [Value::String(name.to_string()), Value::Number(start), Value::Null].map(Some);
    assert_eq!(found, [expected("header", 0), expected("end", 76)]);
}

#[test]
fn names_are_strings_or_hex() {
    let s = Shortcuts::none("json_names");
    for name in [&b"caf\xE9.lnk"[..], "é\u{202E}\n\"\\.lnk".as_bytes()] {
        s.put_raw(name, &z());
    }
    let said = s.run_raw(&[b"check", b"--json", b"caf\xE9.lnk", "é\u{202E}\n\"\\.lnk".as_bytes()]);
    let lines = "{\"file_hex\":\"636166e92e6c6e6b\",\"status\":\"ok\",\"length\":80}\n\
                 {\"file\":\"é\\u202e\\u000a\\\"\\\\.lnk\",\"status\":\"ok\",\"length\":80}\n";
    said.is(0, lines, "");
    assert_eq!(values(&said.out)[1].get("file").unwrap().text(), "é\u{202E}\n\"\\.lnk");
    s.put("a.lnk", SAMPLE);
    let line = "{\"standard_input\":true,\"status\":\"ok\",\"length\":459}\n";
    s.run_on(&["check", "--json"], "a.lnk").is(0, line, "");
    // Names in a list may end with zero bytes; lines of JSON end as always.
    s.put_raw(b"list", b"caf\xE9.lnk\0a.lnk\0");
    let said = s.run(&["check", "--json", "-0", "--files-from", "list"]);
    assert_eq!((said.status, values(&said.out).len()), (0, 2));
}

#[test]
fn characters_are_there_only_where_they_are_certain() {
    let s = Shortcuts::none("json_texts");
    let shown = |flags: u32, arguments: &[u8]| {
        let header = Header { flags, ..Header::default() };
        let arguments = Some(Text::of(header.is_unicode(), arguments));
        s.put("t.lnk", &Record { header, arguments, ..Record::default() }.to_vec().unwrap());
        let value = values(&s.run(&["show", "--json", "t.lnk"]).out).remove(0);
        let text = value.get("arguments").unwrap().clone();
        (text.get("hex").unwrap().text().to_string(), text.get("text").unwrap().clone())
    };
    let string = |text: &str| Value::String(text.to_string());
    assert_eq!(shown(0, b"-g\x01"), ("2d6701".to_string(), string("-g\x01")));
    assert_eq!(shown(0, b"caf\xE9"), ("636166e9".to_string(), Value::Null));
    assert_eq!(shown(0x80, b"\xE9\0\x3D\xD8\x00\xDE"), ("e9003dd800de".to_string(), string("é😀")));
    assert_eq!(shown(0x80, b"\x3D\xD8"), ("3dd8".to_string(), Value::Null));
}

/// All names of members in a value.
fn names(value: &Value, found: &mut BTreeSet<String>) {
    for (name, member) in value.members() {
        found.insert(name.clone());
        names(member, found);
    }
    value.values().iter().for_each(|one| names(one, found));
}

#[test]
fn all_of_show_is_in_it() {
    let s = Shortcuts::none("json_all");
    for (number, row) in rows().iter().filter(|row| check(row).is_ok()).enumerate() {
        s.put(&format!("{:04}.lnk", number), row);
    }
    let (lines, json) = (s.run(&["show", "-0", "-r", "."]), s.run(&["show", "--json", "-r", "."]));
    let shown: Vec<&str> = text(&lines.out).split_terminator('\0').collect();
    let values = values(&json.out);
    assert_eq!(shown.len(), values.len());
    for (shown, value) in shown.iter().zip(&values) {
        let mut found = BTreeSet::from(["item", "block", "storage", "value"].map(str::to_string));
        names(value, &mut found);
        for line in shown.lines().skip(1) {
            let name = line.get(..22).unwrap().trim().to_lowercase().replace(' ', "_");
            assert!(found.contains(&name), "{} is not in {:?}", name, value);
        }
    }
}

#[test]
fn what_does_not_fit_is_noticed() {
    let schema = schema();
    let fits = |definition: &str, text: &str| misfit(&schema, definition, &parse(text).unwrap()).is_none();
    assert!(fits("check", r#"{"file":"a","status":"ok","length":80}"#));
    let wrong = [
        ("check", r#"{"file":"a","status":"ok","length":79}"#),
        ("check", r#"{"file":"a","status":"ok","length":"80"}"#),
        ("check", r#"{"file":"a","status":"ok"}"#),
        ("check", r#"{"status":"ok","length":80}"#),
        ("check", r#"{"file":"a","file_hex":"61","status":"ok","length":80}"#),
        ("check", r#"{"file":"a","status":"ok","length":80,"more":1}"#),
        ("check", r#"{"file":"a","status":"refused","length":80}"#),
        ("key", r#"{"file":"a","status":"ok","key":"0"}"#),
        ("key", r#"{"file":"a","status":"ok","key":"0G"}"#),
        ("target", r#"{"file":"a","status":"ok","target":{"unicode":false,"hex":"","text":1}}"#),
        ("list", r#"{"file":"a","status":"ok","length":80,"sections":[{"name":"head","start":0,"length":76}]}"#),
        ("block", r#"{"signature":"a0000003","name":null,"place":76,"size":8}"#),
    ];
    for (definition, text) in wrong {
        assert!(!fits(definition, text), "{}", text);
    }
    for text in ["{", "{}x", r#"{"a":1,"a":2}"#, "01", "[1,]", "\"\n\"", r#""\ud800""#] {
        assert_eq!(parse(text), None, "{}", text);
    }
}
