use herringnet::{check, Fault, Refusal};

fn main() {
    let shortcut = include_bytes!(concat!(env!("CARGO_MANIFEST_DIR"), "/samples/a.lnk"));
    assert_eq!(check(shortcut), Ok(459));

    let refusal = check(&shortcut[..458]).unwrap_err();
    assert_eq!(refusal, Refusal::new(Fault::Cut, 455));
    assert_eq!(refusal.to_string(), "refused 2 CUT at 455: it is cut off inside a field or a part");
}
