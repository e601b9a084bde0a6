use herringnet::hex::{annotated, LineKind};
use herringnet::{Record, StringName};

fn main() {
    let mut record = Record::default();
    record.set(StringName::Arguments, "-march=rv32").unwrap();
    let mut shortcut = record.to_vec().unwrap();
    let told = annotated(&shortcut);
    assert_eq!(told.spot, None);
    let line = told.lines.iter().find(|line| line.name == "String").unwrap();
    assert_eq!((line.structure, line.place.clone()), ("COMMAND_LINE_ARGUMENTS", 78..89));
    assert_eq!(line.value, "\"-march=rv32\"");

    // A count that asks for more than is there: the lines before it are the same, and nobody judged what follows.
    shortcut[76] = 16;
    let told = annotated(&shortcut).lines;
    let (wrong, rest) = (&told[told.len() - 2], &told[told.len() - 1]);
    assert_eq!((wrong.kind, wrong.name, wrong.place.clone()), (LineKind::Wrong, "CountCharacters", 76..78));
    assert_eq!(wrong.value, "is 0x10, and the file has 15 bytes left");
    assert_eq!((rest.kind, rest.place.clone()), (LineKind::Unjudged, 78..93));
}
