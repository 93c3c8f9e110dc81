//! The text of a token, which the stand-in lacks.

pub struct TokenText;
