//! The separator between the target's two texts, and the room that it takes.
use herringnet::boundary;
use herringnet::record::{Header, Info, Label, Local, Network, Record};
use herringnet::target;

/// First text, suffix, and the target that they make.
const TEXTS: [(&[u8], &[u8], &[u8]); 12] = [
    (br"\\farm\cores", b"rv64", br"\\farm\cores\rv64"),
    (br"\\farm\cores\", b"rv64", br"\\farm\cores\rv64"),
    (br"C:\cores\", b"rv64", br"C:\cores\rv64"),
    (br"C:", b"rv64", br"C:\rv64"),
    (b"C", b"r", br"C\r"),
    (br"\", b"rv64", br"\rv64"),
    (br"C:\cores", b"", br"C:\cores"),
    (b"", b"rv64", b"rv64"),
    (b"", b"", b""),
    // only the end of the first text is looked at
    (br"C:\cores", br"\rv64", br"C:\cores\\rv64"),
    (br"C:\cores\", br"\rv64", br"C:\cores\\rv64"),
    (b"C:/cores/", b"rv64", br"C:/cores/\rv64"),
];

fn local(first: &'static [u8]) -> Info<'static> {
    Info::default().with_local(Local { drive: 3, serial: 1, label: Label::Byte(b""), path: first })
}

fn network(first: &'static [u8]) -> Info<'static> {
    Info::default().with_network(Network { net: first, ..Network::default() })
}

/// Shortcuts whose target has these two texts: a local one and one on the network.
fn shortcuts(first: &'static [u8], suffix: &'static [u8]) -> [Vec<u8>; 2] {
    [local(first), network(first)].map(|info| {
        let header = Header::default();
        Record { header, info: Some(info.with_suffix(suffix)), ..Record::default() }.to_vec().unwrap()
    })
}

#[test]
fn one_backslash_stands_between_share_and_path() {
    for (first, suffix, expected) in TEXTS {
        for shortcut in shortcuts(first, suffix) {
            assert_eq!(target(&shortcut).unwrap(), expected);
        }
    }
}

#[test]
fn the_room_counts_the_separator() {
    for (first, suffix, expected) in TEXTS {
        let length = expected.len();
        for shortcut in shortcuts(first, suffix) {
            for room in 0..length + 2 {
                let mut out = vec![0xEE; room];
                let answer = boundary::target(&shortcut, &mut out, 0);
                if room < length {
                    assert_eq!((answer, out), (12, vec![0xEE; room]));
                } else {
                    assert_eq!(answer, 256 * length as u64);
                    assert_eq!(out[..length], *expected);
                    assert!(out[length..].iter().all(|&byte| byte == 0xEE));
                }
            }
        }
    }
}
