use herringnet::shelf::{self, Shelf};
use herringnet::{key, Fault, Record, StringName};

fn main() {
    let mut record = Record::default();
    let plain = record.to_vec().unwrap();
    record.set(StringName::Arguments, "-O2").unwrap();
    let fast = record.to_vec().unwrap();
    let file = shelf::build(&[&plain, &fast]).unwrap();

    // Everything is tested once; then each entry is a part of the file.
    let shelf = Shelf::read(&file).unwrap();
    assert_eq!((shelf.len(), shelf.get(1)), (2, Some(&fast[..])));
    assert!(shelf.entries().all(|entry| key(entry).is_ok()));

    // One entry, without a look into the others.
    assert_eq!(shelf::one(&file, 0), Ok(&plain[..]));
    assert_eq!(shelf::one(&file, 2).unwrap_err().fault, Fault::Shelf);

    // The old form has the same entries, and comes back as the same shelf.
    assert_eq!(shelf::from_old(&shelf.to_old()).unwrap(), file);

    // An entry that no reader accepts has no place on a shelf.
    let refusal = shelf::build(&[&plain[..], &fast[1..]]).unwrap_err();
    assert_eq!((refusal.fault, refusal.position), (Fault::Entry, 1));
}
