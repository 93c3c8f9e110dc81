//! Offsets and ranges of a text, with the calls that they have in `rowan`.
use std::cmp::Ordering;
use std::fmt;
use std::iter::Sum;
use std::num::TryFromIntError;
use std::ops::{Add, AddAssign, Bound, Index, IndexMut, Range, RangeBounds, Sub, SubAssign};

/// A byte offset in a text, or a number of bytes.
#[derive(Copy, Clone, Default, PartialEq, Eq, PartialOrd, Ord, Hash)]
pub struct TextSize(u32);

impl TextSize {
    /// So many bytes.
    pub const fn new(bytes: u32) -> TextSize {
        TextSize(bytes)
    }

    /// The length of a text. Panics if it has 4 GiB or more.
    pub fn of<T: TextLen>(text: T) -> TextSize {
        text.text_len()
    }

    /// The sum, unless it is 4 GiB or more.
    pub fn checked_add(self, other: TextSize) -> Option<TextSize> {
        self.0.checked_add(other.0).map(TextSize)
    }

    /// The difference, unless it is below 0.
    pub fn checked_sub(self, other: TextSize) -> Option<TextSize> {
        self.0.checked_sub(other.0).map(TextSize)
    }
}

/// What has a length in bytes.
pub trait TextLen: Copy {
    /// The length. Panics if it is 4 GiB or more.
    fn text_len(self) -> TextSize;
}

impl TextLen for &'_ str {
    fn text_len(self) -> TextSize {
        TextSize::try_from(self.len()).expect("a text has less than 4 GiB")
    }
}

impl TextLen for &'_ String {
    fn text_len(self) -> TextSize {
        TextSize::of(self.as_str())
    }
}

impl TextLen for char {
    fn text_len(self) -> TextSize {
        TextSize(self.len_utf8() as u32)
    }
}

impl fmt::Debug for TextSize {
    fn fmt(&self, f: &mut fmt::Formatter<'_>) -> fmt::Result {
        fmt::Display::fmt(&self.0, f)
    }
}

impl From<u32> for TextSize {
    fn from(bytes: u32) -> TextSize {
        TextSize(bytes)
    }
}

impl From<TextSize> for u32 {
    fn from(size: TextSize) -> u32 {
        size.0
    }
}

impl From<TextSize> for usize {
    fn from(size: TextSize) -> usize {
        size.0 as usize
    }
}

impl TryFrom<usize> for TextSize {
    type Error = TryFromIntError;

    fn try_from(bytes: usize) -> Result<TextSize, TryFromIntError> {
        u32::try_from(bytes).map(TextSize)
    }
}

/// Sums and differences: of sizes, also by reference, and of a range and a size, by which the range is moved.
macro_rules! arithmetic {
    ($Op:ident, $op:ident, $OpAssign:ident, $op_assign:ident) => {
        impl $Op for TextSize {
            type Output = TextSize;

            fn $op(self, other: TextSize) -> TextSize {
                TextSize(self.0.$op(other.0))
            }
        }

        impl $Op<&TextSize> for TextSize {
            type Output = TextSize;

            fn $op(self, other: &TextSize) -> TextSize {
                self.$op(*other)
            }
        }

        impl $Op<TextSize> for &TextSize {
            type Output = TextSize;

            fn $op(self, other: TextSize) -> TextSize {
                (*self).$op(other)
            }
        }

        impl $Op<TextSize> for TextRange {
            type Output = TextRange;

            fn $op(self, offset: TextSize) -> TextRange {
                TextRange::new(self.start.$op(offset), self.end.$op(offset))
            }
        }

        impl<T> $OpAssign<T> for TextSize
        where
            TextSize: $Op<T, Output = TextSize>,
        {
            fn $op_assign(&mut self, other: T) {
                *self = self.$op(other);
            }
        }

        impl<T> $OpAssign<T> for TextRange
        where
            TextRange: $Op<T, Output = TextRange>,
        {
            fn $op_assign(&mut self, other: T) {
                *self = self.$op(other);
            }
        }
    };
}
arithmetic!(Add, add, AddAssign, add_assign);
arithmetic!(Sub, sub, SubAssign, sub_assign);

impl<A> Sum<A> for TextSize
where
    TextSize: Add<A, Output = TextSize>,
{
    fn sum<I: Iterator<Item = A>>(sizes: I) -> TextSize {
        sizes.fold(TextSize(0), TextSize::add)
    }
}

/// Bytes of a text, from `start` up to `end`, `end` not among them.
#[derive(Default, Copy, Clone, Eq, PartialEq, Hash)]
pub struct TextRange {
    start: TextSize,
    end: TextSize,
}

impl TextRange {
    /// From an offset up to another. Panics if the end comes before the start.
    #[inline]
    pub const fn new(start: TextSize, end: TextSize) -> TextRange {
        assert!(start.0 <= end.0, "a range ends before it starts");
        TextRange { start, end }
    }

    /// So many bytes from an offset on.
    pub const fn at(offset: TextSize, len: TextSize) -> TextRange {
        TextRange::new(offset, TextSize(offset.0 + len.0))
    }

    /// No bytes, at an offset.
    pub const fn empty(offset: TextSize) -> TextRange {
        TextRange { start: offset, end: offset }
    }

    /// From 0 up to an offset.
    pub const fn up_to(end: TextSize) -> TextRange {
        TextRange { start: TextSize(0), end }
    }

    /// The first byte.
    #[inline]
    pub const fn start(self) -> TextSize {
        self.start
    }

    /// The byte after the last.
    #[inline]
    pub const fn end(self) -> TextSize {
        self.end
    }

    /// How many bytes there are.
    #[inline]
    pub const fn len(self) -> TextSize {
        TextSize(self.end.0 - self.start.0)
    }

    /// Whether there are none.
    #[inline]
    pub const fn is_empty(self) -> bool {
        self.start.0 == self.end.0
    }

    /// Whether the byte at an offset is among them.
    pub fn contains(self, offset: TextSize) -> bool {
        (self.start..self.end).contains(&offset)
    }

    /// The same, or the offset is their end.
    pub fn contains_inclusive(self, offset: TextSize) -> bool {
        (self.start..=self.end).contains(&offset)
    }

    /// Whether another range lies within this one.
    pub fn contains_range(self, other: TextRange) -> bool {
        self.start <= other.start && other.end <= self.end
    }

    /// The bytes in both ranges. Two ranges that touch have the empty range between them.
    pub fn intersect(self, other: TextRange) -> Option<TextRange> {
        let (start, end) = (self.start.max(other.start), self.end.min(other.end));
        (start <= end).then_some(TextRange { start, end })
    }

    /// The smallest range that has both in it.
    pub fn cover(self, other: TextRange) -> TextRange {
        TextRange { start: self.start.min(other.start), end: self.end.max(other.end) }
    }

    /// The smallest range that has this one and the offset in it.
    pub fn cover_offset(self, offset: TextSize) -> TextRange {
        self.cover(TextRange::empty(offset))
    }

    /// The range moved to the right, unless it then ends at 4 GiB or more.
    pub fn checked_add(self, offset: TextSize) -> Option<TextRange> {
        Some(TextRange { start: self.start.checked_add(offset)?, end: self.end.checked_add(offset)? })
    }

    /// The range moved to the left, unless it then starts below 0.
    pub fn checked_sub(self, offset: TextSize) -> Option<TextRange> {
        Some(TextRange { start: self.start.checked_sub(offset)?, end: self.end.checked_sub(offset)? })
    }

    /// Whether this range comes before another (`Less`), after it (`Greater`), or overlaps it (`Equal`).
    pub fn ordering(self, other: TextRange) -> Ordering {
        match (self.end <= other.start, other.end <= self.start) {
            (true, _) => Ordering::Less,
            (false, true) => Ordering::Greater,
            (false, false) => Ordering::Equal,
        }
    }
}

impl fmt::Debug for TextRange {
    fn fmt(&self, f: &mut fmt::Formatter<'_>) -> fmt::Result {
        write!(f, "{:?}..{:?}", self.start, self.end)
    }
}

impl<T: From<TextSize>> From<TextRange> for Range<T> {
    fn from(range: TextRange) -> Range<T> {
        range.start.into()..range.end.into()
    }
}

impl RangeBounds<TextSize> for TextRange {
    fn start_bound(&self) -> Bound<&TextSize> {
        Bound::Included(&self.start)
    }

    fn end_bound(&self) -> Bound<&TextSize> {
        Bound::Excluded(&self.end)
    }
}

/// Parts of texts, as `text[range]`.
macro_rules! indexed_by_ranges {
    ($($text:ty),*) => {
        $(impl Index<TextRange> for $text {
            type Output = str;

            fn index(&self, range: TextRange) -> &str {
                &self[Range::<usize>::from(range)]
            }
        }

        impl IndexMut<TextRange> for $text {
            fn index_mut(&mut self, range: TextRange) -> &mut str {
                &mut self[Range::<usize>::from(range)]
            }
        })*
    };
}
indexed_by_ranges!(str, String);
