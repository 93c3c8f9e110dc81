//! A stand-in for `memchr`: loops over the bytes.

pub fn memchr2(one: u8, other: u8, bytes: &[u8]) -> Option<usize> {
    bytes.iter().position(|byte| *byte == one || *byte == other)
}

pub mod memmem {
    /// Where the pattern is found. What is found does not overlap.
    pub fn find_iter<'b>(bytes: &'b [u8], pattern: &'b [u8]) -> impl Iterator<Item = usize> + 'b {
        let mut next = 0;
        std::iter::from_fn(move || {
            let found = next + bytes.get(next..)?.windows(pattern.len()).position(|window| window == pattern)?;
            next = found + pattern.len();
            Some(found)
        })
    }
}
