//! The numbers that turn a whole file, what was asked of it, or a lent buffer
//! away.
//!
//! The numbers for a single entry are outcomes and live in `outcome.rs`.

/// Why a file, what was asked of it or a lent buffer is not accepted: the
/// number, and the size, the entry or simply 0 that it points at.
#[derive(Debug, Clone, Copy, PartialEq, Eq)]
pub struct Refusal {
    pub number: u32,
    pub place: u32,
}

impl Refusal {
    pub(crate) const SHORT: Refusal = Refusal {
        number: 2,
        place: 0,
    };
    pub(crate) const ROOM: Refusal = Refusal {
        number: 8,
        place: 0,
    };
    /// Points at the margin among the sizes.
    pub(crate) const MARGIN: Refusal = Refusal {
        number: 9,
        place: 3,
    };

    pub(crate) fn size(place: u32) -> Refusal {
        Refusal { number: 1, place }
    }

    pub(crate) fn kind(entry: u32) -> Refusal {
        Refusal {
            number: 3,
            place: entry,
        }
    }

    pub(crate) fn who(entry: u32) -> Refusal {
        Refusal {
            number: 4,
            place: entry,
        }
    }

    pub(crate) fn block(entry: u32) -> Refusal {
        Refusal {
            number: 10,
            place: entry,
        }
    }
}
