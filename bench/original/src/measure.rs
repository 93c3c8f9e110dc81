//! Goes three times over the text of standard input with the lexer and with the parser. Prints the microseconds of each, the bytes of all tokens and the
//! number of errors. bench/parse.py builds it over the Rust crate of this repository too, which has the same interface.
use apollo_parser::{Lexer, Parser};
use std::time::Instant;

const ROUNDS: usize = 3;

fn main() {
    let text = std::io::read_to_string(std::io::stdin()).expect("a text");
    for _ in 0..ROUNDS {
        let started = Instant::now();
        let bytes: usize = Lexer::new(&text).flatten().map(|token| token.data().len()).sum();
        eprintln!("lex {}", started.elapsed().as_micros());
        println!("{bytes} bytes");
        let started = Instant::now();
        let tree = Parser::new(&text).parse();
        eprintln!("parse {}", started.elapsed().as_micros());
        println!("{} errors", tree.errors().len());
    }
}
