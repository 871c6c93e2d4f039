//! What the original takes from its own module `frontend`.

/// A quad; the numbers are document 01's.
#[derive(Debug, Clone, Copy, PartialEq, Eq)]
pub enum QuadVal {
    N = 0,
    F = 1,
    T = 2,
    S = 3,
}
