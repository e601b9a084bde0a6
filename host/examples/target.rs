use herringnet::{target, target_into, Fault};

fn main() {
    let shortcut = include_bytes!(concat!(env!("CARGO_MANIFEST_DIR"), "/samples/a.lnk"));
    assert_eq!(target(shortcut).unwrap(), br"C:\test\a.txt");

    // Into a buffer of the caller's; a refusal leaves it as it was.
    let mut out = [0xEE; 20];
    assert_eq!(target_into(shortcut, &mut out), Ok(13));
    assert_eq!(&out[..14], b"C:\\test\\a.txt\xEE");
    let refusal = target_into(shortcut, &mut out[..12]).unwrap_err();
    assert_eq!(refusal.fault, Fault::Room);
}
