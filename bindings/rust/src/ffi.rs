//! The calls of the library. All of the crate's `unsafe` is in this file.
//!
//! Why it is sound:
//!
//! - **What the library gets.** Texts are `&str`, so they are UTF-8, and nobody writes to them during a call. Each buffer is a `&mut` slice, which nothing
//!   else reaches, with its own length. So the rules of docs/BINDINGS.md ("What a caller has to keep") hold. A pointer with the length 0 may dangle: the
//!   library neither reads nor writes there.
//! - **What the library writes.** It fills the first `min(count, room)` items of a buffer and nothing else: this is proved of it (`ok` of the outcomes in
//!   crates/c_parsing/specs and crates/c_validation/specs), and `filled` takes it from there. Any bits are a value of these items, which are plain numbers.
//! - **What the numbers say** is never trusted for memory safety. The rest of the crate uses indices, ranges and kinds with checks, and messages are
//!   checked to be UTF-8. A wrong number would be a panic, and a wrong kind `ERROR`.
//! - The library keeps no pointer after a call, has no state, takes its memory from `malloc`, and does not unwind. Any number of threads may call at
//!   once.
//! - A text that nests deeper than the stack holds, which takes a recursion limit far above 500, ends the process at the guard page of the thread.
#![allow(unsafe_code)]
#![deny(unsafe_op_in_unsafe_fn)]

use crate::rows::{CompactElement, Counts, ErrorRow, ItemRow, Limits, MeasureCounts, OperationRow, ViolationCounts, ViolationRow};
use crate::rows::{CYCLE, NOT_A_DOCUMENT, NO_MEMORY, OK, SAME_NAME, TOO_LONG, UNDECIDED, UNDEFINED};
use crate::{Error, SyntaxKind};
use std::alloc::{handle_alloc_error, Layout};
use std::mem::{size_of_val, MaybeUninit};

macro_rules! parse_calls {
    ($($name:ident),*) => {
        extern "C" {
            $(fn $name(
                text: *const u8,
                text_length: usize,
                limits: Limits,
                elements: *mut MaybeUninit<CompactElement>,
                element_room: usize,
                errors: *mut MaybeUninit<ErrorRow>,
                error_room: usize,
                messages: *mut MaybeUninit<u8>,
                message_room: usize,
                counts: *mut Counts,
            ) -> u32;)*
        }
    };
}
parse_calls!(dumyroke_parse, dumyroke_parse_selection_set, dumyroke_parse_type);

extern "C" {
    fn dumyroke_lex(
        text: *const u8,
        text_length: usize,
        token_limit: usize,
        items: *mut MaybeUninit<ItemRow>,
        item_room: usize,
        errors: *mut MaybeUninit<ErrorRow>,
        error_room: usize,
        messages: *mut MaybeUninit<u8>,
        message_room: usize,
        counts: *mut Counts,
    ) -> u32;

    fn dumyroke_string_value(literal: *const u8, literal_length: usize, value: *mut MaybeUninit<u8>, room: usize, bytes: *mut usize) -> u32;

    fn dumyroke_default_steps(text_length: usize) -> usize;

    fn dumyroke_validate(
        text: *const u8,
        text_length: usize,
        limits: Limits,
        most: usize,
        step_limit: usize,
        violations: *mut MaybeUninit<ViolationRow>,
        violation_room: usize,
        messages: *mut MaybeUninit<u8>,
        message_room: usize,
        counts: *mut ViolationCounts,
    ) -> u32;

    fn dumyroke_measure(
        text: *const u8,
        text_length: usize,
        limits: Limits,
        operations: *mut MaybeUninit<OperationRow>,
        operation_room: usize,
        counts: *mut MeasureCounts,
    ) -> u32;
}

/// What a text is parsed as.
#[derive(Clone, Copy)]
pub(crate) enum Sort {
    Document,
    SelectionSet,
    Type,
}

impl Sort {
    /// The kind of the root of a tree without elements below it.
    pub(crate) fn root(self) -> SyntaxKind {
        match self {
            Sort::Document => SyntaxKind::DOCUMENT,
            Sort::SelectionSet => SyntaxKind::SELECTION_SET,
            Sort::Type => SyntaxKind::ERROR,
        }
    }
}

/// The text has 2^31 bytes or more, or its tree 2^28 elements or more.
pub(crate) struct TooLong;

/// What a call wrote.
pub(crate) struct Found<T> {
    pub(crate) rows: Vec<T>,
    pub(crate) counts: Counts,
    errors: Vec<ErrorRow>,
    messages: Vec<u8>,
}

impl<T> Found<T> {
    /// The errors of the text that was given.
    pub(crate) fn errors(&self, text: &str) -> Vec<Error> {
        self.errors.iter().map(|row| self.error(row, text)).collect()
    }

    fn error(&self, row: &ErrorRow, text: &str) -> Error {
        let message = String::from_utf8_lossy(&self.messages[row.message..row.message + row.message_length]);
        if row.is_limit != 0 {
            Error::limit(message, row.start)
        } else if row.is_eof != 0 {
            Error::eof(message, row.start)
        } else {
            Error::with_loc(message, text[row.start..row.end].to_owned(), row.start)
        }
    }
}

/// The statuses of a text. The calls have no others for a `&str`.
fn check(status: u32, text: &str) -> Result<(), TooLong> {
    match status {
        OK => Ok(()),
        TOO_LONG => Err(TooLong),
        // as where a Vec is refused memory
        NO_MEMORY => handle_alloc_error(Layout::for_value(text)),
        _ => unreachable!("libdumyroke has no status {status}"),
    }
}

/// A vector of the items that a call wrote to its spare room.
///
/// # Safety
///
/// The vector is empty, and the first `count` items of its spare room were written.
unsafe fn filled<T: Copy>(mut items: Vec<T>, count: usize) -> Vec<T> {
    // SAFETY: these items were written, so the vector has room for them
    unsafe { items.set_len(count) };
    items
}

/// A copy of the items that a call wrote to a buffer.
///
/// # Safety
///
/// The first `count` items were written.
unsafe fn copied<T: Copy>(items: &[MaybeUninit<T>], count: usize) -> Vec<T> {
    // SAFETY: the caller says so
    items[..count].iter().map(|item| unsafe { item.assume_init() }).collect()
}

/// Asks Linux for large pages where there is much room, since the kernel clears each page at the first write. Without them, or on another system, nothing
/// changes but time.
#[cfg(target_os = "linux")]
fn ask_for_large_pages<T>(room: &mut [MaybeUninit<T>]) {
    extern "C" {
        fn madvise(address: *mut u8, length: usize, advice: i32) -> i32;
    }
    const HUGEPAGE: i32 = 14;
    const LARGE: usize = 1 << 21;
    let (start, bytes) = (room.as_mut_ptr().cast::<u8>(), size_of_val(room));
    let before = start.align_offset(LARGE);
    if bytes >= 2 * LARGE && before < bytes {
        // SAFETY: the pages lie in the room, and the advice changes nothing that they hold
        unsafe { madvise(start.wrapping_add(before), (bytes - before) / LARGE * LARGE, HUGEPAGE) };
    }
}

#[cfg(not(target_os = "linux"))]
fn ask_for_large_pages<T>(_room: &mut [MaybeUninit<T>]) {}

/// Gives back the end of much room. An element for two bytes of the text stays: as much the library takes for its own table, and what a tree gives back when it
/// is dropped, glibc keeps for the next one, up to 32 MB.
fn give_back_unused<T>(rows: &mut Vec<T>, text: &str) {
    if rows.capacity() > MUCH {
        rows.shrink_to((text.len() / 2).min(40 * MUCH) + MUCH / 16);
    }
}

/// Room for the errors of a first call, on the stack.
const FEW_ERRORS: usize = 16;
/// So many rows are worth giving back.
const MUCH: usize = 1 << 16;
const FEW_BYTES: usize = 1024;

/// Calls with a guess of the room for rows and with room for few errors, and once more with room for all if that was too little.
fn fill<T: Copy>(
    text: &str,
    guess: usize,
    call: impl Fn(&mut [MaybeUninit<T>], &mut [MaybeUninit<ErrorRow>], &mut [MaybeUninit<u8>], &mut Counts) -> u32,
) -> Result<Found<T>, TooLong> {
    let mut counts = Counts::default();
    let mut rows = Vec::new();
    // a guess may ask for more memory than there is, where the rows need less: then the first call only counts them
    let _ = rows.try_reserve_exact(guess);
    ask_for_large_pages(rows.spare_capacity_mut());
    let mut errors = [MaybeUninit::uninit(); FEW_ERRORS];
    let mut messages = [MaybeUninit::uninit(); FEW_BYTES];
    let mut status = call(rows.spare_capacity_mut(), &mut errors, &mut messages, &mut counts);
    if status == NO_MEMORY {
        // the guess may have taken what the library needs
        rows = Vec::new();
        status = call(&mut [], &mut errors, &mut messages, &mut counts);
    }
    check(status, text)?;
    if counts.elements <= rows.capacity() && counts.errors <= FEW_ERRORS && counts.message_bytes <= FEW_BYTES {
        // SAFETY: the call had the status OK and this room, which is enough for what it counts, so it wrote all of it
        let (mut rows, errors, messages) = unsafe { (filled(rows, counts.elements), copied(&errors, counts.errors), copied(&messages, counts.message_bytes)) };
        give_back_unused(&mut rows, text);
        return Ok(Found { rows, errors, messages, counts });
    }
    rows.reserve_exact(counts.elements);
    let (mut errors, mut messages) = (Vec::with_capacity(counts.errors), Vec::with_capacity(counts.message_bytes));
    check(call(rows.spare_capacity_mut(), errors.spare_capacity_mut(), messages.spare_capacity_mut(), &mut counts), text)?;
    assert!(counts.elements <= rows.capacity() && counts.errors <= errors.capacity() && counts.message_bytes <= messages.capacity());
    // SAFETY: as above
    let (rows, errors, messages) = unsafe { (filled(rows, counts.elements), filled(errors, counts.errors), filled(messages, counts.message_bytes)) };
    Ok(Found { rows, errors, messages, counts })
}

/// The elements and the errors of a text.
pub(crate) fn parse(sort: Sort, text: &str, limits: Limits) -> Result<Found<CompactElement>, TooLong> {
    let call = match sort {
        Sort::Document => dumyroke_parse,
        Sort::SelectionSet => dumyroke_parse_selection_set,
        Sort::Type => dumyroke_parse_type,
    };
    // One element a byte, and some: each of 2,900 texts of other projects has no more, also without its white space. A text may have five a byte.
    fill(text, text.len() + 64, |rows, errors, messages, counts| {
        // SAFETY: each pointer comes with its length, and no two of the buffers overlap
        unsafe {
            call(
                text.as_ptr(),
                text.len(),
                limits,
                rows.as_mut_ptr(),
                rows.len(),
                errors.as_mut_ptr(),
                errors.len(),
                messages.as_mut_ptr(),
                messages.len(),
                counts,
            )
        }
    })
}

/// The items of a text, as many as the limit allows, and their errors.
pub(crate) fn lex(text: &str, token_limit: usize) -> Result<Found<ItemRow>, TooLong> {
    let most = (text.len() + 1).min(token_limit.saturating_add(1));
    fill(text, most, |items, errors, messages, counts| {
        // SAFETY: as in `parse`
        unsafe {
            dumyroke_lex(
                text.as_ptr(),
                text.len(),
                token_limit,
                items.as_mut_ptr(),
                items.len(),
                errors.as_mut_ptr(),
                errors.len(),
                messages.as_mut_ptr(),
                messages.len(),
                counts,
            )
        }
    })
}

/// The value of a string literal, which is given with its quotes; `None` if it is none.
pub(crate) fn string_value(literal: &str) -> Option<String> {
    let (mut value, mut bytes) = (Vec::with_capacity(literal.len()), 0);
    let room: &mut [MaybeUninit<u8>] = value.spare_capacity_mut();
    // SAFETY: as in `parse`
    let status = unsafe { dumyroke_string_value(literal.as_ptr(), literal.len(), room.as_mut_ptr(), room.len(), &mut bytes) };
    match status {
        OK => {
            assert!(bytes <= value.capacity());
            // SAFETY: the call had the status OK and room for so many bytes, so it wrote all of them
            String::from_utf8(unsafe { filled(value, bytes) }).ok()
        }
        NO_MEMORY => handle_alloc_error(Layout::for_value(literal)),
        _ => None,
    }
}

/// The limit of steps for a text of so many bytes, if there is no reason for another one.
pub(crate) fn default_steps(bytes: usize) -> usize {
    // SAFETY: it takes and gives a number, and touches no memory
    unsafe { dumyroke_default_steps(bytes) }
}

/// The violations of a document with the bytes of their messages, and the counts; `None` if the text is no document within both limits.
pub(crate) fn validate(text: &str, limits: Limits, most: usize, steps: usize) -> Option<(Vec<ViolationRow>, Vec<u8>, ViolationCounts)> {
    let mut counts = ViolationCounts::default();
    let (mut rows, mut messages) = (Vec::with_capacity(most.min(FEW_ERRORS)), Vec::with_capacity(FEW_BYTES));
    loop {
        let row_room: &mut [MaybeUninit<ViolationRow>] = rows.spare_capacity_mut();
        let room: &mut [MaybeUninit<u8>] = messages.spare_capacity_mut();
        // SAFETY: as in `parse`
        let status = unsafe {
            let (violations, bytes) = (row_room.as_mut_ptr(), room.as_mut_ptr());
            dumyroke_validate(text.as_ptr(), text.len(), limits, most, steps, violations, row_room.len(), bytes, room.len(), &mut counts)
        };
        match status {
            OK | UNDECIDED if counts.violations <= rows.capacity() && counts.message_bytes <= messages.capacity() => {
                // SAFETY: the call had one of these statuses and this room, which is enough for what it counts, so it wrote all of it
                return Some(unsafe { (filled(rows, counts.violations), filled(messages, counts.message_bytes), counts) });
            }
            OK | UNDECIDED => {
                rows.reserve_exact(counts.violations);
                messages.reserve_exact(counts.message_bytes);
            }
            NOT_A_DOCUMENT => return None,
            NO_MEMORY => handle_alloc_error(Layout::for_value(text)),
            _ => unreachable!("dumyroke_validate has no status {status}"),
        }
    }
}

/// The operations of a document with their figures, or the counts of a call that gives none.
pub(crate) fn measure(text: &str, limits: Limits) -> Result<Vec<OperationRow>, MeasureCounts> {
    let mut counts = MeasureCounts::default();
    let mut rows = Vec::with_capacity(FEW_ERRORS);
    loop {
        let room: &mut [MaybeUninit<OperationRow>] = rows.spare_capacity_mut();
        // SAFETY: as in `parse`
        let status = unsafe { dumyroke_measure(text.as_ptr(), text.len(), limits, room.as_mut_ptr(), room.len(), &mut counts) };
        match status {
            // SAFETY: the call had the status OK and this room, which is enough for what it counts, so it wrote all of it
            OK if counts.operations <= rows.capacity() => return Ok(unsafe { filled(rows, counts.operations) }),
            OK => rows.reserve_exact(counts.operations),
            NOT_A_DOCUMENT | SAME_NAME | CYCLE | UNDEFINED => return Err(counts),
            NO_MEMORY => handle_alloc_error(Layout::for_value(text)),
            _ => unreachable!("dumyroke_measure has no status {status}"),
        }
    }
}
