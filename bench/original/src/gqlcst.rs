//! Prints of the text of standard input what `gqlcst` prints, by the original: its errors, its tokens or its tree. Ends with 1 if there are errors.
use apollo_parser::{Lexer, Parser};
use std::io::{self, BufWriter, Write};
use std::process::ExitCode;

fn check(text: &str, out: &mut impl Write) -> io::Result<usize> {
    let tree = Parser::new(text).parse();
    for error in tree.errors() {
        writeln!(out, "{error:?}")?;
    }
    let count = tree.errors().len();
    if count == 0 {
        writeln!(out, "clean")?;
    } else {
        writeln!(out, "errors: {count}")?;
    }
    Ok(count)
}

fn tokens(text: &str, out: &mut impl Write) -> io::Result<usize> {
    let mut errors = 0;
    for item in Lexer::new(text) {
        match item {
            Ok(token) => writeln!(out, "{token:?}")?,
            Err(error) => {
                errors += 1;
                writeln!(out, "{error:?}")?;
            }
        }
    }
    Ok(errors)
}

fn tree(text: &str, out: &mut impl Write) -> io::Result<usize> {
    let tree = Parser::new(text).parse();
    writeln!(out, "{tree:?}")?;
    Ok(tree.errors().len())
}

fn main() -> io::Result<ExitCode> {
    let text = io::read_to_string(io::stdin())?;
    let mut out = BufWriter::new(io::stdout().lock());
    let errors = match std::env::args().nth(1).as_deref() {
        Some("check") => check(&text, &mut out)?,
        Some("tokens") => tokens(&text, &mut out)?,
        Some("tree") => tree(&text, &mut out)?,
        _ => {
            eprintln!("usage: gqlcst check|tokens|tree");
            return Ok(ExitCode::from(2));
        }
    };
    out.flush()?;
    Ok(ExitCode::from(u8::from(errors > 0)))
}
