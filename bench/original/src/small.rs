//! Parses the text of standard input as often as the command line says, and prints the nanoseconds by the clock and the errors of one parse. bench/small.py
//! builds it over the Rust crate of this repository too, which has the same interface.
use apollo_parser::Parser;
use std::hint::black_box;
use std::time::Instant;

fn main() {
    let text = std::io::read_to_string(std::io::stdin()).expect("a text");
    let parses: usize = std::env::args().nth(1).and_then(|word| word.parse().ok()).expect("a number of parses");
    let mut errors = 0;
    let started = Instant::now();
    for _ in 0..parses {
        errors = black_box(Parser::new(black_box(&text)).parse()).errors().len();
    }
    println!("{} {errors}", started.elapsed().as_nanos());
}
