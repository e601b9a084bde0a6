//! What can be saved of a damaged shortcut (FORMAT: Salvage).
use crate::{boundary, Fault, Refusal, LONGEST};

/// How much of a shortcut was saved, and why not all of it.
#[derive(Clone, Copy, Debug, PartialEq, Eq, Hash)]
#[non_exhaustive]
pub struct Report {
    /// What the shortcut was refused with; `None` for one that is accepted, and copied.
    pub fault: Option<Fault>,
    /// How many of its bytes are kept, all of them from its start.
    pub kept: usize,
    /// How many are not. Both together are the shortcut's length.
    pub dropped: usize,
}

impl Report {
    /// Whether a zero terminal of four bytes was put behind what is kept.
    pub fn mended(&self) -> bool {
        self.fault.map_or(false, |fault| fault != Fault::Trail)
    }

    /// The length of what was written.
    pub fn length(&self) -> usize {
        self.kept + if self.mended() { 4 } else { 0 }
    }
}

/// What can be saved of a shortcut, with a report. An accepted shortcut is copied. One with bytes after its terminal
/// block (9) loses these. One that is refused at a block or for want of a terminal block (2, 8, 14 or 15) is kept up to
/// there, and gets a zero terminal. The result is accepted.
///
/// # Errors
///
/// [`Fault::Lost`], at 0, for every other refused shortcut, and where the result would be over 65,536 bytes long.
///
/// ```
#[doc = include_str!("../examples/salvage.rs")]
/// ```
pub fn salvage(shortcut: &[u8]) -> Result<(Vec<u8>, Report), Refusal> {
    // Four bytes more than the shortcut has are room for every result, none of which passes the longest.
    let mut saved = vec![0; (shortcut.len() + 4).min(LONGEST)];
    let report = salvage_into(shortcut, &mut saved)?;
    saved.truncate(report.length());
    Ok((saved, report))
}

/// Puts what can be saved of a shortcut at the front of `out`, [`Report::length`] bytes. The rest of `out` stays as it is.
///
/// # Errors
///
/// As [`salvage`], then [`Fault::Room`]. A refusal changes no byte of `out`.
pub fn salvage_into(shortcut: &[u8], out: &mut [u8]) -> Result<Report, Refusal> {
    report(boundary::salvage(shortcut, out))
}

/// Takes the answer apart: 131,072 is more than any shortcut has bytes.
fn report(code: u64) -> Result<Report, Refusal> {
    let value = code / 256;
    let bytes = (value / 256) as usize;
    match (code % 256) as u8 {
        0 => Ok(Report {
            fault: Some((value % 256) as u8).filter(|number| *number != 0).map(Fault::of),
            kept: bytes % 131_072,
            dropped: bytes / 131_072,
        }),
        number => Err(Refusal::new(Fault::of(number), value as usize)),
    }
}

#[cfg(test)]
mod tests {
    use super::*;

    #[test]
    fn answers_are_taken_apart() {
        let cut = Report { fault: Some(Fault::Cut), kept: 76, dropped: 3 };
        assert_eq!(report(256 * (2 + 256 * (76 + 131_072 * 3))), Ok(cut));
        assert_eq!((cut.mended(), cut.length()), (true, 80));
        let copied = Report { fault: None, kept: 80, dropped: 0 };
        assert_eq!(report(256 * 256 * 80), Ok(copied));
        assert_eq!((copied.mended(), copied.length()), (false, 80));
        assert_eq!(report(19), Err(Refusal::new(Fault::Lost, 0)));
    }
}
