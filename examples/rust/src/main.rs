//! Prints the interfaces of WebIDL files with how many members each has, or where a file isn't read:
//! `cargo run -- FILE..`.

use std::process::ExitCode;
use weedle::{Definition, Definitions, Err, Parse};

fn main() -> ExitCode {
    let mut status = ExitCode::SUCCESS;
    for path in std::env::args().skip(1) {
        match std::fs::read_to_string(&path) {
            Ok(text) => match interfaces_of(&text) {
                Ok(lines) => print!("{lines}"),
                Err(why) => {
                    eprintln!("{path}:{why}");
                    status = ExitCode::FAILURE;
                }
            },
            Err(error) => {
                eprintln!("{path}: {error}");
                status = ExitCode::FAILURE;
            }
        }
    }
    status
}

/// A line for each interface of a text and one for all, or from where on the text isn't read.
fn interfaces_of(text: &str) -> Result<String, String> {
    let (rest, definitions) = Definitions::parse(text).map_err(|fault| match fault {
        Err::Failure(_) => String::from(" too long, or nests too deep"),
        _ => String::from(" unread"),
    })?;
    if !rest.is_empty() {
        let (line, column) = position_in(text, text.len() - rest.len());
        return Err(format!("{line}:{column}: unread from here on"));
    }
    let interfaces = definitions
        .iter()
        .filter_map(|definition| match definition {
            Definition::Interface(it) => Some((it.identifier.0, it.members.body.len())),
            _ => None,
        });
    let lines: Vec<String> = interfaces
        .map(|(name, members)| format!("{name}: {members} members\n"))
        .collect();
    Ok(format!("{}{} interfaces\n", lines.concat(), lines.len()))
}

/// The line and the column, in characters, of a byte of a text.
fn position_in(text: &str, place: usize) -> (usize, usize) {
    let before = &text[..place];
    let line = before.rfind('\n').map_or(0, |at| at + 1);
    (
        before.matches('\n').count() + 1,
        before[line..].chars().count() + 1,
    )
}

#[cfg(test)]
mod tests {
    use super::interfaces_of;

    #[test]
    fn interfaces_with_their_members() {
        let lines = interfaces_of(include_str!("../../pages.webidl")).unwrap();
        let wanted = ["Window: 2 members", "Storage: 2 members", "2 interfaces"];
        assert_eq!(lines.lines().collect::<Vec<_>>(), wanted);
    }

    #[test]
    fn where_a_text_is_not_read() {
        let text = "interface A {};\n/* é */ enum";
        let why = String::from("2:9: unread from here on");
        assert_eq!(interfaces_of(text), Err(why));
        assert_eq!(interfaces_of("").unwrap(), "0 interfaces\n");
    }

    #[test]
    fn what_nests_too_deep() {
        let text = format!("typedef {}", "sequence<".repeat(5_000));
        let text = format!("{text}long{} x;", ">".repeat(5_000));
        let why = String::from(" too long, or nests too deep");
        assert_eq!(interfaces_of(&text), Err(why));
    }
}
