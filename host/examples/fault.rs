use herringnet::{fault, Record, SectionName};

fn main() {
    let mut shortcut = Record::default().to_vec().unwrap();
    assert_eq!(fault(&shortcut), None);

    shortcut[24] = 0x48;
    let spot = fault(&shortcut).unwrap();
    assert_eq!((spot.refusal.number(), spot.refusal.position), (4, 24));
    assert_eq!((spot.section, spot.start), (SectionName::Header, 0));
    let said = spot.explained(&shortcut);
    assert_eq!(said, "header (at 0), FileAttributes is 0x48, where bits 3, 6 have to be clear");
}
