//! Violations of rules, and figures of operations.
use dumyroke::validation::{default_steps, measure, validate, validate_within, MeasureError, Rule, ValidationError};
use dumyroke::Parser;

fn rules(text: &str) -> Vec<Rule> {
    validate(Parser::new(text), 100).unwrap().iter().map(|violation| violation.rule).collect()
}

#[test]
fn a_document_for_each_rule() {
    assert_eq!(rules("query Q($a: B) {c(d: $a) ...F} fragment F on T {e}"), []);
    let broken = [
        (Rule::ExecutableDefinitions, "{a} type T {a: B}"),
        (Rule::UniqueOperationNames, "query Q {a} query Q {b}"),
        (Rule::LoneAnonymousOperation, "{a} query Q {b}"),
        (Rule::UniqueArgumentNames, "{a(b: 1, b: 2)}"),
        (Rule::UniqueFragmentNames, "{...F} fragment F on T {a} fragment F on T {b}"),
        (Rule::NoUnusedFragments, "{a} fragment F on T {a}"),
        (Rule::KnownFragmentNames, "{...F}"),
        (Rule::NoFragmentCycles, "{...F} fragment F on T {a ...F}"),
        (Rule::UniqueInputFieldNames, "{a(b: {c: 1, c: 2})}"),
        (Rule::UniqueVariableNames, "query Q($a: B, $a: B) {c(d: $a)}"),
        (Rule::NoUndefinedVariables, "query Q {a(b: $c)}"),
        (Rule::NoUnusedVariables, "query Q($a: B) {c}"),
        (Rule::UniqueFieldDefinitionNames, "type T {a: B a: C}"),
        (Rule::UniqueArgumentDefinitionNames, "directive @d(a: B a: C) on FIELD"),
        (Rule::UniqueEnumValueNames, "enum E {A A}"),
        (Rule::UniqueUnionMemberTypes, "union U = A | A"),
        (Rule::UniqueImplementedInterfaces, "extend type T implements I & I"),
    ];
    for (rule, text) in broken {
        assert!(rules(text).contains(&rule), "{rule:?}");
    }
}

#[test]
fn places() {
    let text = "query Q($a: Int) { a }";
    let found = validate(Parser::new(text), 100).unwrap();
    assert_eq!((found.len(), &text[found[0].range.clone()], found[0].other.clone()), (1, "$a: Int", Some(0..22)));
    assert_eq!(validate(Parser::new("{...F}"), 100).unwrap()[0].other, None);
}

#[test]
fn more_than_the_first_room() {
    let spreads: String = (0..3000).map(|number| format!("...F{number} ")).collect();
    let text = format!("{{{spreads}}}");
    for most in [0, 1, 17, 3000] {
        assert_eq!(validate(Parser::new(&text), most).unwrap().len(), most);
    }
    let operations: String = (0..100).map(|number| format!("query Q{number} {{a}} ")).collect();
    assert_eq!(measure(Parser::new(&operations)).unwrap()[99].name.as_deref(), Some("Q99"));
}

/// The borders at which a limit may become another number, and their neighbours.
fn large() -> impl Iterator<Item = usize> {
    [31, 32, 53, 63].into_iter().flat_map(|power| [(1 << power) - 1, 1 << power, (1 << power) + 1]).chain([usize::MAX - 1, usize::MAX])
}

#[test]
fn large_limits() {
    let parser = |text, limit| Parser::new(text).recursion_limit(limit).token_limit(limit);
    for limit in large() {
        assert_eq!(validate(parser("{...F ...G a { b }}", limit), limit).unwrap().len(), 2);
        assert_eq!(validate_within(parser("{...F ...G a { b }}", limit), limit, limit).unwrap().len(), 2);
        assert_eq!(measure(parser("{a {b}}", limit)).unwrap()[0].figures.depth, 2);
        assert_eq!(parser("{a {b}}", limit).parse().errors().len(), 0);
        assert_eq!(parser("{a {b}}", limit).parse_selection_set().errors().len(), 0);
        assert_eq!(parser("[A]", limit).parse_type().errors().len(), 0);
        assert_eq!(dumyroke::Lexer::new("{a}").with_limit(limit).lex().1.len(), 0);
    }
}

/// Operations that declare a variable without a use, as many as there are fragments: they spread the first fragment, and each fragment the next one. With it
/// the bytes of each operation.
fn chain(count: usize) -> (String, Vec<std::ops::Range<usize>>) {
    let (mut text, mut operations) = (String::new(), Vec::new());
    for number in 0..count {
        let start = text.len();
        text += &format!("query Q{number}($v: T) {{ ...F0 }}");
        operations.push(start..text.len());
        let next = if number + 1 < count { format!("...F{}", number + 1) } else { "a".into() };
        text += &format!(" fragment F{number} on T {{ {next} }}\n");
    }
    (text, operations)
}

/// Each operation of a chain reaches itself and the fragments, with a spread in each but the last.
fn steps_of_an_operation(count: usize) -> usize {
    (count + 1) + count
}

#[test]
fn steps_that_are_used_up() {
    let (text, operations) = chain(3);
    let judged = |steps| validate_within(Parser::new(&text), 100, steps);
    for (steps, end) in [(0, 0), (1, 1), (7, 1), (8, 2), (14, 2)] {
        let Err(ValidationError::Undecided(operation, violations)) = judged(steps) else { panic!("{steps} steps suffice") };
        assert_eq!(operation, operations[end]);
        assert_eq!(violations.iter().map(|found| found.other.clone().unwrap()).collect::<Vec<_>>(), operations[..end]);
    }
    for steps in [15, 21, usize::MAX - 1, usize::MAX] {
        assert_eq!(judged(steps).unwrap().len(), 3);
    }
    // a list that is full is no error
    assert_eq!(validate_within(Parser::new(&text), 2, 8).unwrap().len(), 2);
    assert_eq!(validate_within(Parser::new(&text), 0, 0), Ok(vec![]));
}

#[test]
fn too_much_to_validate() {
    let (text, operations) = chain(1000);
    let limit = 1_000_000 + 10 * text.len();
    assert_eq!(default_steps(text.len()), limit);
    let end = limit.div_ceil(steps_of_an_operation(1000));
    let error = validate(Parser::new(&text), usize::MAX).unwrap_err();
    assert_eq!(error.to_string(), format!("too much to validate: the steps were used up before the operation at the byte {}", operations[end].start));
    let ValidationError::Undecided(operation, violations) = error else { panic!("it is a document") };
    assert_eq!((operation, violations.len()), (operations[end].clone(), end));
}

#[test]
fn figures() {
    let found = measure(Parser::new("{ a a } query Q { b: a @d { b ...F } } fragment F on T { c d }")).unwrap();
    let (first, second) = (&found[0], &found[1]);
    assert_eq!((first.name.as_deref(), first.range.clone(), first.figures.fields, first.figures.height), (None, 0..7, 2, 1));
    let figures = second.figures;
    assert_eq!((figures.depth, figures.fields, figures.root_fields, figures.aliases, figures.directives), (2, 4, 1, 1, 1));
    assert_eq!((figures.height, figures.distinct_root_fields), (4, 1));
}

#[test]
fn no_figures() {
    let error = |text| measure(Parser::new(text)).unwrap_err();
    assert_eq!(error("{a} fragment F on T {a} fragment F on T {b}"), MeasureError::SameName(4..23, 24..43));
    assert_eq!(error("{...F} fragment F on T {...F}"), MeasureError::Cycle(24..28));
    assert_eq!(error("{ a ...F }"), MeasureError::Undefined(4..8));
    assert!(matches!(error("{a"), MeasureError::NotADocument(errors) if errors.len() == 1));
    let deep = || Parser::new("{a{b}}").recursion_limit(1);
    assert!(matches!(measure(deep()), Err(MeasureError::NotADocument(errors)) if errors[0].is_limit()));
    assert!(matches!(validate(deep(), 1), Err(ValidationError::NotADocument(errors)) if errors[0].is_limit()));
}
