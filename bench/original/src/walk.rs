//! Walks over the typed tree of the text of standard input, once or as often as the command line says, by accessors alone.
//! Prints the megabytes a second, the nanoseconds by the clock, and what it counted. bench/parse.py builds it over the Rust crate of this repository too.
use apollo_parser::cst::{Definition, Field, Selection, SelectionSet, Value};
use apollo_parser::Parser;
use std::hint::black_box;
use std::time::Instant;

#[derive(Default)]
struct Walk {
    fields: usize,
    arguments: usize,
    string_bytes: usize,
}

impl Walk {
    fn selection_set(&mut self, set: Option<SelectionSet>) {
        let Some(set) = set else { return };
        for selection in set.selections() {
            match selection {
                Selection::Field(field) => self.field(field),
                Selection::InlineFragment(fragment) => self.selection_set(fragment.selection_set()),
                Selection::FragmentSpread(_) => {}
            }
        }
    }

    fn field(&mut self, field: Field) {
        self.fields += 1;
        if let Some(list) = field.arguments() {
            for argument in list.arguments() {
                self.arguments += 1;
                self.value(argument.value());
            }
        }
        self.selection_set(field.selection_set());
    }

    fn value(&mut self, value: Option<Value>) {
        match value {
            Some(Value::StringValue(string)) => self.string_bytes += String::from(string).len(),
            Some(Value::ListValue(list)) => list.values().for_each(|value| self.value(Some(value))),
            Some(Value::ObjectValue(object)) => object.object_fields().for_each(|field| self.value(field.value())),
            _ => {}
        }
    }
}

fn main() {
    let text = std::io::read_to_string(std::io::stdin()).expect("a text");
    let walks: u64 = std::env::args().nth(1).map_or(1, |word| word.parse().expect("a number of walks"));
    let document = Parser::new(&text).parse().document();
    let started = Instant::now();
    let mut walk = Walk::default();
    for _ in 0..walks {
        walk = Walk::default();
        for definition in black_box(&document).definitions() {
            match definition {
                Definition::OperationDefinition(operation) => walk.selection_set(operation.selection_set()),
                Definition::FragmentDefinition(fragment) => walk.selection_set(fragment.selection_set()),
                _ => {}
            }
        }
    }
    let nanoseconds = started.elapsed().as_nanos();
    let Walk { fields, arguments, string_bytes } = walk;
    eprintln!("{} MB/s", 1000 * u128::from(walks) * text.len() as u128 / nanoseconds.max(1));
    println!("{nanoseconds} 0: {fields} fields, {arguments} arguments, {string_bytes} bytes of strings");
}
