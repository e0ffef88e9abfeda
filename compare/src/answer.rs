//! What weedle2 answers of a text: kinds, names, values, and what is left.

use std::io::{self, Write};
use weedle::{Definition, Definitions, Parse};

/// Writes the kind and the name of each definition, below it its `Debug` text, and last how many they are, or from
/// which byte on the text isn't read.
///
/// Calls `Definitions::parse`: `weedle::parse` ends the program where a part of the text is left.
pub fn write(text: &str, out: &mut impl Write) -> io::Result<()> {
    let (rest, definitions) = read(text);
    for definition in &definitions {
        let (kind, name) = title(definition);
        writeln!(out, "{kind} {name}")?;
        writeln!(out, "  {definition:?}")?;
    }
    if rest.is_empty() {
        writeln!(out, "definitions {}", definitions.len())
    } else {
        writeln!(out, "unread at byte {}", text.len() - rest.len())
    }
}

/// What is left of a text, and the definitions before it.
pub fn read(text: &str) -> (&str, Definitions<'_>) {
    Definitions::parse(text).unwrap_or_else(|_| (text, Vec::new()))
}

/// A definition's kind, in the words of `weedle_list`, and its name.
fn title<'a>(definition: &Definition<'a>) -> (&'static str, &'a str) {
    use Definition::*;
    match definition {
        Callback(it) => ("callback", it.identifier.0),
        CallbackInterface(it) => ("callback interface", it.identifier.0),
        Interface(it) => ("interface", it.identifier.0),
        InterfaceMixin(it) => ("interface mixin", it.identifier.0),
        Namespace(it) => ("namespace", it.identifier.0),
        Dictionary(it) => ("dictionary", it.identifier.0),
        PartialInterface(it) => ("partial interface", it.identifier.0),
        PartialInterfaceMixin(it) => ("partial interface mixin", it.identifier.0),
        PartialDictionary(it) => ("partial dictionary", it.identifier.0),
        PartialNamespace(it) => ("partial namespace", it.identifier.0),
        Enum(it) => ("enum", it.identifier.0),
        Typedef(it) => ("typedef", it.identifier.0),
        IncludesStatement(it) => ("includes", it.lhs_identifier.0),
        Implements(it) => ("implements", it.lhs_identifier.0),
    }
}

#[cfg(test)]
mod tests {
    use super::write;

    fn lines(text: &str) -> Vec<String> {
        let mut out = Vec::new();
        write(text, &mut out).unwrap();
        let answer = String::from_utf8(out).unwrap();
        answer
            .lines()
            .filter(|line| !line.starts_with(' '))
            .map(String::from)
            .collect()
    }

    #[test]
    fn lists_what_is_read() {
        let text = "interface mixin Body {}; Request includes Body;";
        assert_eq!(
            lines(text),
            ["interface mixin Body", "includes Request", "definitions 2"]
        );
        assert_eq!(lines(""), ["definitions 0"]);
    }

    #[test]
    fn says_where_the_rest_begins() {
        assert_eq!(
            lines("interface A {}; é"),
            ["interface A", "unread at byte 16"]
        );
        assert_eq!(lines("// c"), ["unread at byte 0"]);
    }
}
