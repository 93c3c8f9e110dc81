//! How a limit was used.
use std::fmt;

/// How much of a limit was used.
#[derive(Clone, Copy, PartialEq, Eq)]
pub struct LimitTracker {
    current: usize,
    /// The greatest count that was tried: one above the limit where that was met.
    pub high: usize,
    /// The greatest count that is allowed.
    pub limit: usize,
}

impl LimitTracker {
    /// A tracker that has counted nothing.
    pub fn new(limit: usize) -> Self {
        LimitTracker { current: 0, high: 0, limit }
    }

    /// After a call of the library that tried a count of `high`.
    pub(crate) fn used(limit: usize, high: usize) -> Self {
        LimitTracker { current: 0, high, limit }
    }

    /// Counts one more, unless that is above the limit. Answers whether it is.
    pub fn check_and_increment(&mut self) -> bool {
        let tried = self.current.saturating_add(1);
        self.high = self.high.max(tried);
        if tried <= self.limit {
            self.current = tried;
        }
        tried > self.limit
    }

    /// Counts one less, down to 0.
    pub fn decrement(&mut self) {
        self.current = self.current.saturating_sub(1);
    }
}

/// `recursion limit: 500, high: 2`
impl fmt::Debug for LimitTracker {
    fn fmt(&self, f: &mut fmt::Formatter<'_>) -> fmt::Result {
        write!(f, "recursion limit: {}, high: {}", self.limit, self.high)
    }
}
