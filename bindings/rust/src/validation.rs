//! Rules of validation that need no schema, and how large operations are with their fragments expanded. `apollo-parser` has no such module.
use crate::ffi;
pub use crate::rows::Rule;
use crate::{Error, Parser};
use std::fmt;
use std::ops::Range;

/// A place at which a document breaks a rule.
#[derive(Debug, Clone, PartialEq, Eq)]
pub struct Violation {
    /// The rule.
    pub rule: Rule,
    /// The bytes of the node that breaks it.
    pub range: Range<usize>,
    /// The other party: the first of the name, the operation whose variables are meant, or another operation or fragment.
    pub other: Option<Range<usize>>,
    /// What is wrong.
    pub message: String,
}

/// Why the violations of a document are not known, or not all of them.
#[derive(Debug, Clone, PartialEq, Eq)]
pub enum ValidationError {
    /// The text is no document within both limits: the errors of its parse.
    NotADocument(Vec<Error>),
    /// Too much to validate: the steps were used up before this operation, the bytes of which are given. Its variables and those of later operations are
    /// not judged. The violations are those that were found.
    Undecided(Range<usize>, Vec<Violation>),
}

impl fmt::Display for ValidationError {
    fn fmt(&self, f: &mut fmt::Formatter<'_>) -> fmt::Result {
        match self {
            ValidationError::NotADocument(_) => write!(f, "the text is no document"),
            ValidationError::Undecided(operation, _) => {
                write!(f, "too much to validate: the steps were used up before the operation at the byte {}", operation.start)
            }
        }
    }
}

impl std::error::Error for ValidationError {}

/// The places at which a document breaks a [`Rule`], at most `most` of them, in the order of the text. No two are the same. If there are fewer, they are
/// all, and there are none exactly if the document keeps all these rules. A document of the type system is judged only by those on what one definition
/// has twice. The rules on variables have [`default_steps`] for the text.
///
/// ```
/// use dumyroke::validation::{validate, Rule};
/// use dumyroke::Parser;
///
/// let found = validate(Parser::new("query Q($id: ID) { a }"), 10).unwrap();
/// assert_eq!((found[0].rule, &found[0].range), (Rule::NoUnusedVariables, &(8..15)));
/// ```
///
/// # Errors
///
/// See [`ValidationError`].
pub fn validate(parser: Parser<'_>, most: usize) -> Result<Vec<Violation>, ValidationError> {
    let steps = default_steps(parser.text.len());
    validate_within(parser, most, steps)
}

/// The same with another number of steps, `usize::MAX` for any number.
///
/// The rules on variables judge one operation after another. An operation takes a step for each definition that it reaches, for each spread of a fragment in
/// these, and for each name of a variable that one of these uses. A definition that uses a variable which the operation does not declare takes a step for
/// each use, too. If the operations before one took all steps, validation ends before it: see [`ValidationError::Undecided`]. If `most` violations were
/// found, that is no error.
///
/// ```
/// use dumyroke::validation::{validate_within, ValidationError};
/// use dumyroke::Parser;
///
/// // each operation takes one step
/// let found = validate_within(Parser::new("query A { a } query B { b }"), 10, 1);
/// assert_eq!(found, Err(ValidationError::Undecided(14..27, vec![])));
/// ```
///
/// # Errors
///
/// See [`ValidationError`].
pub fn validate_within(parser: Parser<'_>, most: usize, steps: usize) -> Result<Vec<Violation>, ValidationError> {
    let Some((rows, messages, counts)) = ffi::validate(parser.text, parser.limits, most, steps) else {
        return Err(ValidationError::NotADocument(parser.parse().errors().cloned().collect()));
    };
    let violation = |row: &crate::rows::ViolationRow| Violation {
        rule: crate::rows::RULES[row.rule as usize],
        range: row.start..row.end,
        other: (row.has_other != 0).then_some(row.other_start..row.other_end),
        message: String::from_utf8_lossy(&messages[row.message..row.message + row.message_length]).into_owned(),
    };
    let violations = rows.iter().map(violation).collect();
    match counts.status {
        crate::rows::UNDECIDED => Err(ValidationError::Undecided(counts.undecided_start..counts.undecided_end, violations)),
        _ => Ok(violations),
    }
}

/// The steps of [`validate`] for a text of so many bytes: 1,000,000, and 10 more for each byte.
pub fn default_steps(bytes: usize) -> usize {
    ffi::default_steps(bytes)
}

/// How large an operation is with the selections of its fragment in place of each fragment spread. A figure stops at `u64::MAX`.
#[derive(Debug, Clone, Copy, PartialEq, Eq)]
pub struct Figures {
    /// The greatest number of fields in one another: 2 for `{a{b}}`.
    pub depth: u64,
    /// The number of fields, `__typename` among them.
    pub fields: u64,
    /// The number of fields that no field encloses.
    pub root_fields: u64,
    /// The number of aliases.
    pub aliases: u64,
    /// The number of directives: of the operation, its variables, its selections, and its fragments at each of their spreads.
    pub directives: u64,
    /// The number of fields, where each selection set, also of a fragment, counts a response name once. Apollo Router limits it as `max_height`.
    pub height: u64,
    /// The number of root fields, counted like `height`.
    pub distinct_root_fields: u64,
}

/// An operation of a document, with its figures.
#[derive(Debug, Clone, PartialEq, Eq)]
pub struct Operation {
    /// Its name, if it has one.
    pub name: Option<String>,
    /// Its bytes.
    pub range: Range<usize>,
    /// How large it is.
    pub figures: Figures,
}

/// Why the operations of a document have no figures, with the bytes of the text that it is about.
#[derive(Debug, Clone, PartialEq, Eq)]
pub enum MeasureError {
    /// The text is no document within both limits: the errors of its parse.
    NotADocument(Vec<Error>),
    /// Two fragments have one name: the first one, and another.
    SameName(Range<usize>, Range<usize>),
    /// An operation leads to this spread, which is part of a cycle of fragments.
    Cycle(Range<usize>),
    /// An operation leads to this spread, and there is no such fragment.
    Undefined(Range<usize>),
}

impl fmt::Display for MeasureError {
    fn fmt(&self, f: &mut fmt::Formatter<'_>) -> fmt::Result {
        match self {
            MeasureError::NotADocument(_) => write!(f, "the text is no document"),
            MeasureError::SameName(first, second) => write!(f, "the fragments at the bytes {} and {} have one name", first.start, second.start),
            MeasureError::Cycle(spread) => write!(f, "the spread at the byte {} is part of a cycle of fragments", spread.start),
            MeasureError::Undefined(spread) => write!(f, "there is no fragment for the spread at the byte {}", spread.start),
        }
    }
}

impl std::error::Error for MeasureError {}

/// The operations of a document, in order, with their figures. It takes no longer for a document that expands to very many fields.
///
/// ```
/// use dumyroke::validation::measure;
/// use dumyroke::Parser;
///
/// let operations = measure(Parser::new("{ a ...F } fragment F on T { b { c } }")).unwrap();
/// assert_eq!((operations[0].figures.depth, operations[0].figures.fields), (2, 3));
/// ```
///
/// # Errors
///
/// See [`MeasureError`]. Fragments that no operation leads to may be on a cycle, or spread what is not defined.
pub fn measure(parser: Parser<'_>) -> Result<Vec<Operation>, MeasureError> {
    let operation = |row: &crate::rows::OperationRow| Operation {
        name: (row.name_start < row.name_end).then(|| parser.text[row.name_start..row.name_end].to_owned()),
        range: row.start..row.end,
        figures: Figures {
            depth: row.depth,
            fields: row.fields,
            root_fields: row.root_fields,
            aliases: row.aliases,
            directives: row.directives,
            height: row.height,
            distinct_root_fields: row.distinct_root_fields,
        },
    };
    match ffi::measure(parser.text, parser.limits) {
        Ok(rows) => Ok(rows.iter().map(operation).collect()),
        Err(counts) => {
            let at = counts.start..counts.end;
            Err(match counts.status {
                crate::rows::SAME_NAME => MeasureError::SameName(counts.other_start..counts.other_end, at),
                crate::rows::CYCLE => MeasureError::Cycle(at),
                crate::rows::UNDEFINED => MeasureError::Undefined(at),
                _ => MeasureError::NotADocument(parser.parse().errors().cloned().collect()),
            })
        }
    }
}
