//! The interface of apollo-parser 0.8.7: each call once, and what it gives for texts whose answer the grammar fixes.
use dumyroke::cst::{self, CstNode};
use dumyroke::rowan::{NodeOrToken, TextRange, TextSize};
use dumyroke::{Error, Lexer, LimitTracker, Parser, SyntaxKind, SyntaxTree, TokenKind, T};

fn document(text: &str) -> cst::Document {
    let tree = Parser::new(text).parse();
    assert_eq!(tree.errors().len(), 0, "{tree:?}");
    tree.document()
}

fn definition(text: &str) -> cst::Definition {
    document(text).definitions().next().unwrap()
}

/// The nodes of a type in a document.
fn all<N: CstNode>(document: &cst::Document) -> Vec<N> {
    document.syntax().descendants().filter_map(N::cast).collect()
}

fn operation(text: &str) -> cst::OperationDefinition {
    match definition(text) {
        cst::Definition::OperationDefinition(operation) => operation,
        other => panic!("{other:?}"),
    }
}

#[test]
fn operations() {
    let query = operation("query Q($a: Int = 1, $b: [ID!]!) @d(e: 2) { f }");
    assert_eq!(query.operation_type().unwrap().query_token().unwrap().text(), "query");
    assert_eq!(query.name().unwrap().text(), "Q");
    let variables: Vec<cst::VariableDefinition> = query.variable_definitions().unwrap().variable_definitions().collect();
    assert_eq!(variables.iter().map(|it| String::from(it.variable().unwrap().text())).collect::<Vec<_>>(), ["a", "b"]);
    assert!(matches!(variables[0].ty(), Some(cst::Type::NamedType(_))));
    assert!(matches!(variables[1].ty(), Some(cst::Type::NonNullType(it)) if it.list_type().is_some() && it.named_type().is_none()));
    assert!(matches!(variables[0].default_value().unwrap().value(), Some(cst::Value::IntValue(it)) if i32::try_from(&it) == Ok(1)));
    let directive = query.directives().unwrap().directives().next().unwrap();
    assert_eq!(directive.name().unwrap().text(), "d");
    assert_eq!(directive.arguments().unwrap().arguments().next().unwrap().name().unwrap().text(), "e");
    assert!(operation("{ a }").operation_type().is_none() && operation("{ a }").name().is_none());
}

#[test]
fn selections() {
    let set = operation("{ a: b(c: $d) { e } ...F ... on T @d { g } }").selection_set().unwrap();
    assert_eq!((set.l_curly_token().unwrap().text(), set.r_curly_token().unwrap().text()), ("{", "}"));
    let selections: Vec<cst::Selection> = set.selections().collect();
    let [cst::Selection::Field(field), cst::Selection::FragmentSpread(spread), cst::Selection::InlineFragment(inline)] = &selections[..] else {
        panic!("{selections:?}");
    };
    assert_eq!((&*field.alias().unwrap().name().unwrap().text(), &*field.name().unwrap().text()), ("a", "b"));
    let argument = field.arguments().unwrap().arguments().next().unwrap();
    assert!(matches!(argument.value(), Some(cst::Value::Variable(it)) if it.text() == "d"));
    assert_eq!(spread.fragment_name().unwrap().name().unwrap().text(), "F");
    assert_eq!(spread.dotdotdot_token(), spread.spread_token());
    assert_eq!(inline.type_condition().unwrap().named_type().unwrap().name().unwrap().text(), "T");
    assert_eq!(inline.selection_set().unwrap().source_string(), "{ g }");
}

#[test]
fn values() {
    let document = document(r#"{ a(b: "q\u00e9\n", c: """ x""", d: -3, e: 2.5e1, f: true, g: E, h: null, i: [1], j: {k: 9999999999}) }"#);
    let strings: Vec<String> = all::<cst::StringValue>(&document).into_iter().map(String::from).collect();
    assert_eq!(strings, ["qé\n", " x"]);
    let integers: Vec<cst::IntValue> = all(&document);
    assert_eq!(integers.iter().map(|it| i32::try_from(it).ok()).collect::<Vec<_>>(), [Some(-3), Some(1), None]);
    assert_eq!(f64::try_from(integers[2].clone()), Ok(9999999999.0));
    assert_eq!(f64::try_from(&all::<cst::FloatValue>(&document)[0]), Ok(25.0));
    assert_eq!(bool::try_from(&all::<cst::BooleanValue>(&document)[0]), Ok(true));
    assert_eq!(all::<cst::EnumValue>(&document)[0].text(), "E");
    assert_eq!(all::<cst::ListValue>(&document)[0].values().count(), 1);
    let field = all::<cst::ObjectValue>(&document)[0].object_fields().next().unwrap();
    assert_eq!(field.name().unwrap().text().as_str(), "k");
}

#[test]
fn definitions() {
    let text = r#"
        "d" type A implements B & C { f(a: Int): A! } interface B { f: A } union U = A | B enum E { X Y } input I { a: Int = 1 } scalar S
        directive @d(a: Int) repeatable on FIELD | QUERY schema { query: A } fragment F on A { f } query Q { f }
        extend type A @d extend interface B @d extend union U @d extend enum E @d extend input I @d extend scalar S @d extend schema @d"#;
    let definitions: Vec<cst::Definition> = document(text).definitions().collect();
    let shown: Vec<_> = definitions.iter().map(|it| (it.kind(), it.name().map(|name| name.text().to_string()).unwrap_or_default())).collect();
    let wanted = [
        ("ObjectTypeDefinition", "A"),
        ("InterfaceTypeDefinition", "B"),
        ("UnionTypeDefinition", "U"),
        ("EnumTypeDefinition", "E"),
        ("InputObjectTypeDefinition", "I"),
        ("ScalarTypeDefinition", "S"),
        ("DirectiveDefinition", "d"),
        ("SchemaDefinition", ""),
        ("FragmentDefinition", "F"),
        ("OperationDefinition", "Q"),
        ("ObjectTypeExtension", "A"),
        ("InterfaceTypeExtension", "B"),
        ("UnionTypeExtension", "U"),
        ("EnumTypeExtension", "E"),
        ("InputObjectTypeExtension", "I"),
        ("ScalarTypeExtension", "S"),
        ("SchemaExtension", ""),
    ];
    assert_eq!(shown, wanted.map(|(kind, name)| (kind, name.to_string())));
    assert_eq!(definitions.iter().filter(|it| it.is_extension_definition()).count(), 7);
    assert_eq!(definitions.iter().filter(|it| it.is_executable_definition()).count(), 2);
    let cst::Definition::ObjectTypeDefinition(object) = &definitions[0] else { panic!() };
    assert_eq!(String::from(object.description().unwrap().string_value().unwrap()), "d");
    let interfaces: Vec<String> = object.implements_interfaces().unwrap().named_types().map(|it| it.name().unwrap().text().into()).collect();
    assert_eq!(interfaces, ["B", "C"]);
    let cst::Definition::DirectiveDefinition(directive) = &definitions[6] else { panic!() };
    let locations = directive.directive_locations().unwrap().directive_locations();
    assert_eq!(locations.map(|it| it.text().unwrap().to_string()).collect::<Vec<_>>(), ["FIELD", "QUERY"]);
    assert!(directive.repeatable_token().is_some());
}

#[test]
fn casts() {
    let definition = definition("scalar S");
    let node = definition.syntax().clone();
    assert!(cst::ScalarTypeDefinition::can_cast(SyntaxKind::SCALAR_TYPE_DEFINITION) && cst::Definition::can_cast(node.kind()));
    assert!(cst::ObjectTypeDefinition::cast(node.clone()).is_none() && cst::Value::cast(node.clone()).is_none());
    let scalar = cst::ScalarTypeDefinition::cast(node).unwrap();
    assert_eq!(cst::Definition::from(scalar.clone()), definition);
    assert_eq!((scalar.to_string(), scalar.clone_subtree().source_string()), ("scalar S".into(), "scalar S".into()));
    assert_ne!(scalar.clone_subtree(), scalar);
    assert_eq!(scalar.name().unwrap().syntax().text_range(), TextRange::new(7.into(), 8.into()));
}

#[test]
fn printed_trees() {
    let wanted = r#"- DOCUMENT@0..9
    - OPERATION_DEFINITION@0..9
        - SELECTION_SET@0..9
            - L_CURLY@0..1 "{"
            - WHITESPACE@1..2 " "
            - FIELD@2..3
                - NAME@2..3
                    - IDENT@2..3 "a"
            - WHITESPACE@3..4 " "
            - SPREAD@4..7 "..."
            - WHITESPACE@7..8 " "
            - R_CURLY@8..9 "}"
- ERROR@4:7 "expected an Inline Fragment or a Fragment Spread" ...
recursion limit: 500, high: 1"#;
    assert_eq!(format!("{:?}", Parser::new("{ a ... }").parse()), wanted);
    let root = document("{ name }").syntax().clone();
    assert_eq!(format!("{root:?} {:?}", root.first_token().unwrap()), "DOCUMENT@0..8 L_CURLY@0..1 \"{\"");
    assert_eq!(format!("{root:#?}").lines().nth(6), Some("        NAME@2..6"));
    assert_eq!(format!("{root}{}", root.last_token().unwrap()), "{ name }}");
}

#[test]
fn errors() {
    let tree = Parser::new("{ hero(id) { name }").parse();
    let [first, last] = &tree.errors().cloned().collect::<Vec<Error>>()[..] else { panic!("{tree:?}") };
    assert_eq!((first.message(), first.data(), first.index()), ("expected COLON, got )", ")", 9));
    assert_eq!((first.is_eof(), first.is_limit(), last.is_eof(), last.is_limit(), last.data()), (false, false, true, false, ""));
    assert_eq!(first.to_string(), "ERROR@9:10 \"expected COLON, got )\" )");
    assert_eq!(format!("{last:?}"), "ERROR@19:19 \"expected R_CURLY, got EOF\" EOF");
    assert_eq!(*first, Error::with_loc("expected COLON, got )", ")".into(), 9));
    assert_eq!(*last, Error::eof("expected R_CURLY, got EOF", 19));
    assert_ne!(Error::limit("m", 1), Error::eof("m", 1));
    let _: &dyn std::error::Error = first;
}

#[test]
fn limits() {
    let tree = Parser::new("{a{b}}").recursion_limit(1).parse();
    assert!(tree.errors().any(Error::is_limit));
    assert_eq!((tree.recursion_limit().limit, tree.recursion_limit().high), (1, 2));
    assert_eq!((tree.token_limit().limit, tree.token_limit().high), (usize::MAX, 7));
    let tree = Parser::new("{a{b}}").token_limit(3).parse();
    assert_eq!((tree.errors().len(), tree.token_limit().high, tree.document().source_string()), (1, 4, "{a{".into()));
    assert_eq!(Parser::new("{a{b}}").recursion_limit(2).token_limit(7).parse().errors().len(), 0);
    let mut tracker = LimitTracker::new(1);
    assert_eq!([tracker.check_and_increment(), tracker.check_and_increment()], [false, true]);
    tracker.decrement();
    assert_eq!((tracker.check_and_increment(), format!("{tracker:?}")), (false, "recursion limit: 1, high: 2".into()));
}

#[test]
fn parts_of_documents() {
    let tree = Parser::new("a b { c } } d").parse_selection_set();
    assert_eq!((tree.errors().len(), tree.field_set().selections().count()), (0, 2));
    let tree = Parser::new("[Int!]! = 3").parse_type();
    assert!(tree.errors().len() == 0 && matches!(tree.ty(), cst::Type::NonNullType(_)));
    assert_eq!(tree.try_ty(), Some(tree.ty()).filter(|it| *it == tree.ty()));
    let tree = Parser::new(") Int").parse_type();
    assert_eq!((tree.errors().len(), tree.try_ty()), (1, None));
    assert!(matches!(tree.ty(), cst::Type::NamedType(it) if it.name().is_none() && it.syntax().kind() == SyntaxKind::ERROR));
}

#[test]
fn tokens() {
    let (tokens, errors) = Lexer::new("query{é ..,\"x\"1 1.5#c").lex();
    let kinds: Vec<TokenKind> = tokens.iter().map(|token| token.kind()).collect();
    let white = TokenKind::Whitespace;
    assert_eq!(kinds, [T![name], T!['{'], white, T![,], T![string], T![int], white, T![float], TokenKind::Comment, TokenKind::Eof]);
    assert_eq!(errors.iter().map(|error| (error.index(), error.data())).collect::<Vec<_>>(), [(6, "é"), (9, "..")]);
    assert_eq!((tokens[4].data(), tokens[4].index()), ("\"x\"", 12));
    assert_eq!(format!("{:?} {:?}", tokens[0], tokens[9]), "NAME@0:5 \"query\" EOF@22:22");
    let all = Lexer::new("!$&...,:=@()[]{}|").map(|token| token.unwrap().kind());
    let wanted = [T![!], T![$], T![&], T![...], T![,], T![:], T![=], T![@], T!['('], T![')'], T!['['], T![']'], T!['{'], T!['}'], T![|], TokenKind::Eof];
    assert_eq!(all.collect::<Vec<_>>(), wanted);
    let (tokens, errors) = Lexer::new("a b").with_limit(2).lex();
    assert_eq!((tokens.len(), errors.len(), errors[0].is_limit(), errors[0].index()), (2, 1, true, 2));
}

/// A tree and the text of a name may go to other threads, and a copy of a tree is equal to it.
#[test]
fn shared_trees() {
    fn goes_anywhere<T: Send + Sync + Clone + PartialEq>(it: &T) -> T {
        it.clone()
    }
    let tree: SyntaxTree = Parser::new("scalar Date").parse();
    assert!(goes_anywhere(&tree) == tree && Parser::new("scalar  Date").parse() != tree);
    let name = goes_anywhere(&tree.document().definitions().next().unwrap().name().unwrap().text());
    drop(tree);
    assert_eq!((name.len(), name.as_ref() as &str, format!("{name} {name:?}")), (4, "Date", "Date \"Date\"".into()));
    let owned = String::from("Date");
    assert_eq!(name, owned);
    assert_eq!(owned, name);
    assert_eq!(name, *"Date");
    assert_eq!(name, "Date");
    assert_eq!("Date", name);
    assert!(name < Parser::new("scalar E").parse().document().definitions().next().unwrap().name().unwrap().text());
}

#[test]
fn ranges() {
    let (two, five) = (TextSize::from(2), TextSize::from(5));
    let range = TextRange::at(two, 3.into());
    assert_eq!((range.start(), range.end(), range.len(), range.is_empty()), (two, five, 3.into(), false));
    assert_eq!(&"abcdefg"[range], "cde");
    assert_eq!((range.contains(five), range.contains_inclusive(five), range.contains_range(TextRange::empty(five))), (false, true, true));
    assert_eq!(range.intersect(TextRange::up_to(two)), Some(TextRange::empty(two)));
    assert_eq!(range.intersect(TextRange::up_to(1.into())), None);
    assert_eq!(
        (range.cover_offset(7.into()), range + two, range - two),
        (TextRange::new(two, 7.into()), TextRange::at(4.into(), 3.into()), TextRange::up_to(3.into()))
    );
    assert_eq!((range.checked_sub(3.into()), range.ordering(TextRange::empty(five))), (None, std::cmp::Ordering::Less));
    assert_eq!((TextSize::of("é"), TextSize::of('é'), [two, five].into_iter().sum::<TextSize>()), (two, two, 7.into()));
    assert_eq!(format!("{two:?} {range:?}"), "2 2..5");
}

#[test]
fn texts_of_nodes() {
    let document = document("{ a #é\n}");
    let text = document.syntax().text();
    assert_eq!((text.len(), text.is_empty(), text.char_at(5.into()), text.char_at(6.into())), (9.into(), false, Some('é'), None));
    assert_eq!((text.contains_char('é'), text.find_char('é'), text.find_char('x')), (true, Some(5.into()), None));
    assert_eq!(text.slice(TextRange::new(4.into(), 7.into())), "#é");
    assert_eq!((text.slice(..TextSize::from(1)).to_string(), String::from(text.slice(TextSize::from(7)..))), ("{".into(), "\n}".into()));
    let mut pieces = String::new();
    text.for_each_chunk(|piece| pieces += piece);
    assert!(text == *pieces && text == document.syntax().as_str() && format!("{text:?}") == "\"{ a #é\\n}\"");
    assert!(document.syntax().children_with_tokens().all(|it| matches!(it, NodeOrToken::Node(_))));
}
