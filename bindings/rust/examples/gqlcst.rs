//! Prints what the program gqlcst of the repository prints of the text on standard input, and also of a selection set or a type.
use dumyroke::cst::CstNode;
use dumyroke::{Lexer, Parser, SyntaxTree};
use std::io::{self, Read, Write};
use std::process::ExitCode;

const USAGE: &str = "usage: gqlcst check|tokens|tree|selection|type [--recursion N] [--tokens N] < TEXT";

struct Limits {
    recursion: usize,
    tokens: usize,
}

/// A line for each item, and how many errors there are.
fn tokens(text: &str, limits: &Limits) -> (String, usize) {
    let items: Vec<_> = Lexer::new(text).with_limit(limits.tokens).collect();
    let lines = items.iter().map(|item| match item {
        Ok(token) => format!("{token:?}\n"),
        Err(error) => format!("{error}\n"),
    });
    (lines.collect(), items.iter().filter(|item| item.is_err()).count())
}

fn errors(tree: SyntaxTree) -> (String, usize) {
    let lines: String = tree.errors().map(|error| format!("{error}\n")).collect();
    match tree.errors().len() {
        0 => ("clean\n".into(), 0),
        count => (format!("{lines}errors: {count}\n"), count),
    }
}

fn printed<T: CstNode>(tree: SyntaxTree<T>) -> (String, usize) {
    (format!("{tree:?}\n"), tree.errors().len())
}

fn shown(mode: &str, text: &str, limits: &Limits) -> Option<(String, usize)> {
    let parser = Parser::new(text).recursion_limit(limits.recursion).token_limit(limits.tokens);
    Some(match mode {
        "check" => errors(parser.parse()),
        "tokens" => tokens(text, limits),
        "tree" => printed(parser.parse()),
        "selection" => printed(parser.parse_selection_set()),
        "type" => printed(parser.parse_type()),
        _ => return None,
    })
}

/// The mode and the limits. Each option may be there once.
fn read_words(words: &[String]) -> Option<(&str, Limits)> {
    let (mode, options) = words.split_first()?;
    let (mut recursion, mut tokens) = (None, None);
    for option in options.chunks(2) {
        let [name, number] = option else { return None };
        let limit = match name.as_str() {
            "--recursion" => &mut recursion,
            "--tokens" => &mut tokens,
            _ => return None,
        };
        let is_number = number.bytes().all(|byte| byte.is_ascii_digit());
        if limit.replace(number.parse().ok().filter(|_| is_number)?).is_some() {
            return None;
        }
    }
    Some((mode, Limits { recursion: recursion.unwrap_or(500), tokens: tokens.unwrap_or(usize::MAX) }))
}

fn main() -> io::Result<ExitCode> {
    let words: Vec<String> = std::env::args_os().skip(1).map(|word| word.to_string_lossy().into()).collect();
    let mut bytes = Vec::new();
    let Some((mode, limits)) = read_words(&words) else {
        eprintln!("{USAGE}");
        return Ok(ExitCode::from(2));
    };
    io::stdin().read_to_end(&mut bytes)?;
    let Ok(text) = std::str::from_utf8(&bytes) else {
        eprintln!("gqlcst: input is not UTF-8");
        return Ok(ExitCode::from(2));
    };
    let Some((out, errors)) = shown(mode, text, &limits) else {
        eprintln!("{USAGE}");
        return Ok(ExitCode::from(2));
    };
    io::stdout().write_all(out.as_bytes())?;
    Ok(ExitCode::from(u8::from(errors > 0)))
}
