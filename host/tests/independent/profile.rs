//! The two profiles, made from the words of request 10 alone.

#[derive(Clone, Copy, PartialEq, Eq, Debug)]
pub enum Profile {
    Strict,
    NinetyFive,
}

impl Profile {
    pub const ALL: [Profile; 2] = [Profile::Strict, Profile::NinetyFive];

    /// The attribute bits that a shortcut may not have: 3, 6 and those from 15 on, of which 95 keeps the first.
    pub(super) fn forbidden_attributes(self) -> u32 {
        let kept = if self == Profile::NinetyFive { 1 << 15 } else { 0 };
        (1 << 3 | 1 << 6 | u32::MAX << 15) & !kept
    }

    /// Whether an offset field of LinkInfo's head says nothing where its part is absent.
    pub(super) fn forgives_leftovers(self) -> bool {
        self == Profile::NinetyFive
    }
}
