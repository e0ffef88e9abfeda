//! The nodes of a text.

use weedle::syntax::{syntax, syntax_in, Dialect, Fault, Node};

const TEXT: &str = "interface A {}; // é\nA includes B;";

/// What the rules of a name read.
fn read_by<'a>(name: &str, nodes: &[Node], text: &'a str) -> Vec<&'a str> {
    let named = nodes.iter().filter(|node| node.name() == name);
    named.map(|node| node.text_in(text)).collect()
}

#[test]
fn names_of_nodes_and_what_they_read() {
    let nodes = syntax(TEXT).unwrap();
    assert_eq!(read_by("definitions", &nodes, TEXT), [TEXT]);
    let interfaces = read_by("interface_definition", &nodes, TEXT);
    assert_eq!(interfaces, ["interface A {}; // é\n"]);
    assert_eq!(read_by("identifier_text", &nodes, TEXT), ["A", "A", "B"]);
}

#[test]
fn leaves_are_the_text() {
    let nodes = syntax(TEXT).unwrap();
    let next = |at: usize| nodes.get(at + 1).map_or(0, |node| node.depth);
    let leaves = (0..nodes.len()).filter(|at| next(*at) <= nodes[*at].depth);
    let joined: String = leaves.map(|at| nodes[at].text_in(TEXT)).collect();
    assert_eq!(joined, TEXT);
}

#[test]
fn a_text_may_be_empty_or_refused() {
    assert_eq!(syntax("").unwrap().len(), 1);
    assert_eq!(syntax("interface A {}; enum"), Err(Fault::Refused(16)));
    assert_eq!(syntax("enum"), Err(Fault::Refused(0)));
}

#[test]
fn dense_texts_get_the_room_that_they_need() {
    let text = format!("[A=(a{})] interface B {{}};", ",a".repeat(10_000));
    let nodes = syntax(&text).unwrap();
    assert!(nodes.len() > 2 * text.len());
    assert_eq!(read_by("identifier_text", &nodes, &text).len(), 10_003);
}

#[test]
fn todays_rules_read_more() {
    let text = "[Exposed=*] interface A { async_iterable<long>; };";
    assert_eq!(syntax(text), Err(Fault::Refused(0)));
    assert_eq!(syntax_in(text, Dialect::Weedle2), syntax(text));
    let nodes = syntax_in(text, Dialect::Today).unwrap();
    assert_eq!(read_by("today_definitions", &nodes, text), [text]);
    let members = read_by("today_interface_member", &nodes, text);
    assert_eq!(members, ["async_iterable<long>; "]);
    assert_eq!(read_by("identifier_text", &nodes, text), ["Exposed", "A"]);
}

#[test]
fn both_dialects_read_what_weedle2_reads() {
    let nodes = syntax_in(TEXT, Dialect::Today).unwrap();
    assert_eq!(read_by("identifier_text", &nodes, TEXT), ["A", "A", "B"]);
    assert_eq!(syntax_in(TEXT, Dialect::default()), syntax(TEXT));
    assert_eq!(syntax_in("enum", Dialect::Today), Err(Fault::Refused(0)));
    let rest = "interface A {}; enum";
    assert_eq!(syntax_in(rest, Dialect::Today), Err(Fault::Refused(16)));
}

#[test]
fn todays_rules_read_what_nests_deep() {
    let text = format!(
        "typedef {}long{} A;",
        "sequence<".repeat(5_000),
        ">".repeat(5_000)
    );
    let nodes = syntax_in(&text, Dialect::Today).unwrap();
    assert_eq!(read_by("today_sequence_type", &nodes, &text).len(), 5_000);
}

#[test]
fn faults_are_said_in_a_line() {
    let table = [
        (Fault::Refused(16), "unread from byte 16 on"),
        (Fault::NoMemory, "memory was refused"),
        (Fault::TooLong, "the text is too long"),
    ];
    for (fault, line) in table {
        assert_eq!(fault.to_string(), line);
    }
}
