use herringnet::record::{Header, Info, Label, Local, Window};
use herringnet::{target, Fault, Record, StringName};

fn main() {
    let local = Local { drive: 3, serial: 7, label: Label::Byte(b"TOOLS"), path: br"D:\cc\cc.exe" };
    let mut record = Record {
        header: Header { command: 3, ..Header::default() },
        info: Some(Info::default().with_local(local)),
        ..Record::default()
    };
    record.set(StringName::Arguments, "-g1").unwrap();
    let shortcut = record.to_vec().unwrap();
    assert_eq!(target(&shortcut).unwrap(), br"D:\cc\cc.exe");

    // The bits that tell of presence follow from what is there; all else reads back as it was.
    let read = Record::read(&shortcut).unwrap();
    assert_eq!(read.header.flags, 0x22);
    assert_eq!(read.header.window(), Window::Maximised);
    assert_eq!((&read.info, &read.arguments), (&record.info, &record.arguments));

    // This record's texts are of bytes, and windows-1252 has no such letter: nothing is changed.
    let misfit = record.set(StringName::Arguments, "-D\u{3A9}").unwrap_err();
    assert_eq!((misfit.character, misfit.place), ('\u{3A9}', 2));
    assert_eq!(record.arguments, read.arguments);

    // A record that no shortcut reads as is refused, with the field at fault: the text has a zero in it.
    let mut wrong = read;
    wrong.info.as_mut().unwrap().suffix = b"a\0b";
    let refusal = wrong.to_vec().unwrap_err();
    assert_eq!((refusal.fault, refusal.cause.unwrap().field), (Fault::Unwritable, "suffix"));
}
