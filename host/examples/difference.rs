use herringnet::difference::Parts;
use herringnet::{Record, StringName};

fn main() {
    let with = |arguments: &str| {
        let mut record = Record::default();
        record.set(StringName::Arguments, arguments).unwrap();
        record.to_vec().unwrap()
    };
    let (one, other) = (with("-march=rv32"), with("-march=rv64"));
    let [one, other] = [&one, &other].map(|shortcut| Parts::read(shortcut).unwrap());
    let differences = one.differences(&other);
    assert_eq!(differences.len(), 1);
    assert_eq!(differences[0].part, "arguments");
    assert_eq!(differences[0].place.to_string(), "after 9 characters, at 87 in both");
    assert_eq!(differences[0].words(), "\"-march=rv32\" -> \"-march=rv64\"");
    assert!(differences[0].could_name);
    assert!(one.differences(&one).is_empty());
}
