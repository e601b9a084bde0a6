use herringnet::audit::Audit;
use herringnet::{Profile, Record};
use std::fs;

fn main() {
    // Nothing but an item names the driver, and no item is in a key.
    let folder = std::env::temp_dir().join(format!("herringnet-audit-{}", std::process::id()));
    fs::create_dir_all(&folder).unwrap();
    let paths = [b"\x06\0rv32", b"\x06\0rv64"].map(|item| {
        let path = folder.join(format!("{}.lnk", String::from_utf8_lossy(&item[2..])));
        fs::write(&path, Record { items: Some(item), ..Record::default() }.to_vec().unwrap()).unwrap();
        path
    });
    let audit = Audit::of(paths, Profile::Strict);
    fs::remove_dir_all(&folder).unwrap();
    assert!(!audit.is_clean());
    assert_eq!((audit.files, audit.blind.len(), audit.groups.len()), (2, 2, 1));
    assert!(!audit.groups[0].is_one_driver());
    let difference = &audit.groups[0].others[0].differences[0];
    assert_eq!(difference.part, "item 1 of the item list");
}
