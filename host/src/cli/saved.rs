//! What `salvage` says of a file.
use herringnet::{fault, Refusal, Report};

/// What it was refused with and where, how many bytes are kept and dropped, and which blocks went.
pub fn said(shortcut: &[u8], report: &Report) -> String {
    let gone = if report.mended() { gone(&shortcut[report.kept..]) } else { Vec::new() };
    let blocks = if gone.is_empty() { String::new() } else { format!(", gone: {}", gone.join(", ")) };
    format!("{}, kept {}, dropped {}{}", was(shortcut), report.kept, report.dropped, blocks)
}

/// That nothing can be saved, and what it was refused with and where.
pub fn lost(shortcut: &[u8], refusal: &Refusal) -> String {
    format!("{}; it was {}", refusal, was(shortcut))
}

fn was(shortcut: &[u8]) -> String {
    match fault(shortcut) {
        Some(spot) => format!("refused {} at {}", spot.refusal.fault, spot.refusal.position),
        None => "accepted".to_string(),
    }
}

/// The signatures of the blocks that were dropped, as far as their sizes lead from one to the next.
fn gone(mut rest: &[u8]) -> Vec<String> {
    let mut signatures = Vec::new();
    while let Some(size) = number(rest, 0).filter(|size| *size >= 4) {
        let signature = number(rest, 4).filter(|_| size >= 8);
        signatures.push(signature.map_or("a block without a signature".to_string(), |n| format!("{:08X}", n)));
        rest = rest.get(size as usize..).filter(|_| size >= 8).unwrap_or(&[]);
    }
    signatures
}

fn number(bytes: &[u8], place: usize) -> Option<u32> {
    let bytes = bytes.get(place..place + 4)?;
    Some(bytes.iter().rev().fold(0, |number, byte| number << 8 | u32::from(*byte)))
}
