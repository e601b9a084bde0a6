use herringnet::{listing, section, sections, SectionName};

fn main() {
    let shortcut = include_bytes!(concat!(env!("CARGO_MANIFEST_DIR"), "/samples/a.lnk"));
    let workdir = section(shortcut, SectionName::Workdir, 0).unwrap();
    assert_eq!((workdir.start, workdir.length()), (343, 16));
    assert_eq!(workdir.bytes, &shortcut[343..359]);
    assert_eq!(section(shortcut, SectionName::Arguments, 0), None);

    // All of them lie end to end.
    let all = sections(shortcut).unwrap();
    assert_eq!(all.iter().map(|section| section.length()).sum::<usize>(), shortcut.len());
    assert_eq!(all[1].to_string(), "items 76 191");
    assert!(listing(shortcut).unwrap().starts_with("ok 459\nheader 0 76\nitems 76 191\n"));
}
