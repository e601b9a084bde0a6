use herringnet::{check, salvage, Fault, Record};

fn main() {
    let whole = Record::default().to_vec().unwrap();
    let (saved, report) = salvage(&[&whole[..], b"padding"].concat()).unwrap();
    assert_eq!(saved, whole);
    assert_eq!((report.fault, report.kept, report.dropped), (Some(Fault::Trail), 80, 7));

    // Cut inside its terminal block, it gets a new one.
    let (saved, report) = salvage(&whole[..77]).unwrap();
    assert!(check(&saved).is_ok());
    assert_eq!(saved, whole);
    assert_eq!((report.fault, report.kept, report.dropped), (Some(Fault::Cut), 76, 1));

    // Cut inside its header, nothing of it can be kept.
    assert_eq!(salvage(&whole[..75]).unwrap_err().fault, Fault::Lost);
}
