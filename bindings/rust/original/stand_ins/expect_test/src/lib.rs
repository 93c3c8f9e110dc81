//! As much of the crate `expect-test` as the original's tests use.
use std::fs;
use std::path::PathBuf;

/// A text that is wanted.
pub struct Expect(pub &'static str);

/// A file with the text that is wanted.
pub struct ExpectFile(pub PathBuf);

#[macro_export]
macro_rules! expect {
    [[$text:literal]] => { $crate::Expect($text) };
}

#[macro_export]
macro_rules! expect_file {
    [$path:expr] => { $crate::ExpectFile(($path).into()) };
}

/// A text of several lines without the indent that all of them have.
fn dedented(text: &str) -> String {
    let Some(text) = text.strip_prefix('\n') else { return text.to_owned() };
    let written = text.lines().filter(|line| !line.trim().is_empty());
    let indent = written.map(|line| line.len() - line.trim_start().len()).min().unwrap_or(0);
    text.split('\n').map(|line| line.get(indent..).unwrap_or("")).collect::<Vec<_>>().join("\n")
}

impl Expect {
    pub fn assert_eq(&self, actual: &str) {
        assert_eq!(actual, dedented(self.0));
    }
}

impl ExpectFile {
    pub fn assert_eq(&self, actual: &str) {
        let wanted = fs::read_to_string(&self.0).unwrap_or_else(|error| panic!("{:?}: {error}", self.0));
        let differing = wanted.lines().zip(actual.lines()).find(|(one, other)| one != other);
        assert!(wanted == actual, "{:?} differs: {differing:?}", self.0);
    }
}
