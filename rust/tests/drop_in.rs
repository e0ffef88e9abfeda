//! What a user of weedle2 does. The values are by hand, from weedle2's documentation and the grammar.

use nom::error::ErrorKind;
use weedle::common::{Docstring, Identifier, Parenthesized, Punctuated, PunctuatedNonEmpty};
use weedle::interface::InterfaceMember;
use weedle::literal::{ConstValue, DecLit, IntegerLit};
use weedle::types::{NonAnyType, SingleType, Type};
use weedle::{term, Definition, Definitions, Err, Error, IResult, Parse};

#[test]
fn a_text_is_read() {
    let text = "interface Window { readonly attribute Storage sessionStorage; };";
    let parsed = weedle::parse(text).unwrap();
    let [Definition::Interface(interface)] = &parsed[..] else {
        panic!("{parsed:?}")
    };
    let [InterfaceMember::Attribute(member)] = &interface.members.body[..] else {
        panic!("{interface:?}")
    };
    assert_eq!(member.identifier, Identifier("sessionStorage"));
    assert_eq!(member.readonly, Some(term!(readonly)));
    let Type::Single(SingleType::NonAny(NonAnyType::Identifier(name))) = &member.type_.type_ else {
        panic!("{member:?}")
    };
    assert_eq!((name.type_.0, name.q_mark), ("Storage", None));
}

#[test]
fn what_is_kept_of_the_text() {
    let text = "///One\n  ///two\ninterface _A { const long B = -12; };";
    let parsed = weedle::parse(text).unwrap();
    let [Definition::Interface(interface)] = &parsed[..] else {
        panic!("{parsed:?}")
    };
    let docstring = Docstring(String::from("One\ntwo"));
    assert_eq!(interface.docstring, Some(docstring));
    assert_eq!(interface.identifier, Identifier("A"));
    let [InterfaceMember::Const(member)] = &interface.members.body[..] else {
        panic!("{interface:?}")
    };
    let twelve = ConstValue::Integer(IntegerLit::Dec(DecLit("-12")));
    assert_eq!(member.const_value, twelve);
}

#[test]
fn an_empty_text_has_no_definitions() {
    assert_eq!(weedle::parse(""), Ok(vec![]));
}

#[test]
fn a_rest_is_an_error_with_its_place() {
    let text = "enum E { \"a\" }; interface";
    let fault = Error::new("interface", ErrorKind::Eof);
    assert_eq!(weedle::parse(text), Err(Err::Error(fault)));
    let (rest, list) = Definitions::parse(text).unwrap();
    assert_eq!((rest, list.len()), ("interface", 1));
}

#[test]
fn the_three_rules_that_differ() {
    assert!(weedle::parse("interface 1A {};").is_err());
    assert!(weedle::parse("interface A { const long B = 0x; };").is_err());
    assert_eq!(weedle::parse("interface A {}; // end").unwrap().len(), 1);
}

#[test]
fn types_are_read_alone() {
    let (rest, _) = Type::parse("long? x").unwrap();
    assert_eq!(rest, "x");
    let fault = Error::new(";", ErrorKind::Fail);
    assert_eq!(Type::parse(";"), Err(Err::Error(fault)));
    assert_eq!(<term!(;)>::parse(" ; x"), Ok(("x", term!(;))));
}

#[test]
fn lists_options_and_tuples_are_read_alone() {
    let (one, two) = (Identifier("one"), Identifier("two"));
    let list = <Vec<Identifier>>::parse("one two ;");
    assert_eq!(list, Ok((";", vec![one, two])));
    let option = <Option<Identifier>>::parse(";");
    assert_eq!(option, Ok((";", None)));
    let pair = <(Identifier, term!(,))>::parse("one, two");
    assert_eq!(pair, Ok(("two", (one, term!(,)))));
    let boxed = <Box<Identifier>>::parse("one two");
    assert_eq!(boxed, Ok(("two", Box::new(one))));
}

#[test]
fn lists_with_separators_that_the_grammar_has_no_rule_for() {
    let (one, two) = (Identifier("one"), Identifier("two"));
    type List<'a> = Punctuated<Identifier<'a>, term!(;)>;
    type NonEmpty<'a> = PunctuatedNonEmpty<Identifier<'a>, term!(;)>;
    let (rest, list) = List::parse("one; two; )").unwrap();
    assert_eq!((rest, list.list), ("; )", vec![one, two]));
    let (rest, list) = List::parse(")").unwrap();
    assert_eq!((rest, list.list), (")", vec![]));
    let (rest, list) = NonEmpty::parse("one; two; )").unwrap();
    assert_eq!((rest, list.list), (")", vec![one, two]));
    assert!(NonEmpty::parse(")").is_err());
}

/// A type of the user's own, read by parts that the grammar has no rule for together.
#[derive(Debug, PartialEq)]
struct Pair<'a>(Identifier<'a>, Identifier<'a>);

impl<'a> Parse<'a> for Pair<'a> {
    fn parse(input: &'a str) -> IResult<&'a str, Self> {
        let (rest, (first, _, second)) = <(Identifier, term!(:), Identifier)>::parse(input)?;
        Ok((rest, Pair(first, second)))
    }
}

#[test]
fn types_of_ones_own_stand_in_generic_types() {
    let (rest, read) =
        <Parenthesized<Punctuated<Pair, term!(;)>>>::parse("(a: b; c: d) e").unwrap();
    let pairs = [
        Pair(Identifier("a"), Identifier("b")),
        Pair(Identifier("c"), Identifier("d")),
    ];
    assert_eq!((rest, &read.body.list[..]), ("e", &pairs[..]));
}

#[test]
fn variants_are_made_of_what_they_hold() {
    let (_, name) = Identifier::parse("A").unwrap();
    let made = NonAnyType::from(weedle::types::MayBeNull {
        type_: name,
        q_mark: None,
    });
    assert_eq!(NonAnyType::parse("A"), Ok(("", made)));
}

#[test]
fn threads_read_side_by_side() {
    let definition =
        |number| format!("interface I{number} {{ undefined f(optional long x = 1); }};\n");
    let text: String = (0..1_000).map(definition).collect();
    std::thread::scope(|scope| {
        for _ in 0..8 {
            scope.spawn(|| assert_eq!(weedle::parse(&text).unwrap().len(), 1_000));
        }
    });
}
