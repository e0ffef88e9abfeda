//! The syntax tree of a text, as a list of nodes: what each rule of the grammar read, comments and whitespace included.

use crate::{library, rules};
use std::fmt;

/// A rule that was read, and the bytes that it took.
#[repr(C)]
#[derive(Clone, Copy, Debug, Default, PartialEq, Eq, Hash)]
pub struct Node {
    /// The number of the rule, which belongs to a version of the library.
    pub rule: u32,
    /// How many nodes it is in.
    pub depth: u32,
    /// Where it begins, in bytes from the front of the text.
    pub start: u32,
    /// Where it ends: the place behind its last byte.
    pub end: u32,
}

impl Node {
    /// The name of the rule, as `interface_definition`.
    ///
    /// # Panics
    ///
    /// Where no rule has the number, as of a node that [`syntax`] didn't give.
    pub fn name(&self) -> &'static str {
        rules::NAMES[self.rule as usize]
    }

    /// What the rule read of the text that the node is of.
    ///
    /// # Panics
    ///
    /// Where the node is of another text, and its places aren't characters' in this one.
    pub fn text_in<'a>(&self, text: &'a str) -> &'a str {
        &text[self.start as usize..self.end as usize]
    }
}

/// The grammar by which a text is read.
#[derive(Clone, Copy, Debug, Default, PartialEq, Eq, Hash)]
pub enum Dialect {
    /// weedle2's rules, which read `interface A {};`.
    #[default]
    Weedle2,
    /// Those of today's WebIDL, which read what weedle2's read, and more, as `[Exposed=*] interface A {};`.
    Today,
}

impl Dialect {
    /// The rule that reads a whole text.
    fn whole(self) -> u16 {
        match self {
            Dialect::Weedle2 => rules::DEFINITIONS,
            Dialect::Today => rules::TODAY_DEFINITIONS,
        }
    }
}

/// Why there is no syntax tree.
#[derive(Clone, Copy, Debug, PartialEq, Eq, Hash)]
pub enum Fault {
    /// The grammar leaves the text from this byte on.
    Refused(usize),
    /// Memory was refused.
    NoMemory,
    /// 32 bits don't hold a place or a depth of the tree, as of a text of more than 4 GB.
    TooLong,
}

impl fmt::Display for Fault {
    fn fmt(&self, f: &mut fmt::Formatter<'_>) -> fmt::Result {
        match self {
            Fault::Refused(place) => write!(f, "unread from byte {place} on"),
            Fault::NoMemory => f.write_str("memory was refused"),
            Fault::TooLong => f.write_str("the text is too long"),
        }
    }
}

impl std::error::Error for Fault {}

/// Reads a whole text as definitions, and gives the nodes of its syntax tree, as of `interface A {};`.
///
/// They are in preorder: those below a node are the nodes behind it, as long as they are deeper. The texts of those
/// with none below them, one after another, are the text. A text has some 0.8 to 1.6 nodes a byte, of 16 bytes each.
///
/// ```
/// let text = "interface Window { attribute Storage store; };";
/// let nodes = weedle::syntax(text)?;
/// let names = nodes.iter().filter(|it| it.name() == "identifier_text");
/// assert_eq!(names.map(|it| it.text_in(text)).collect::<Vec<_>>(), ["Window", "Storage", "store"]);
/// # Ok::<(), weedle::syntax::Fault>(())
/// ```
///
/// # Errors
///
/// A [`Fault`]: the text isn't read whole, memory is refused, or the text is longer than 4 GB.
pub fn syntax(text: &str) -> Result<Vec<Node>, Fault> {
    syntax_in(text, Dialect::Weedle2)
}

/// The same by the rules of a dialect, as of `[Exposed=*] interface A {};` by today's.
///
/// There are types of weedle2's tree alone. By today's rules the node of the whole text is `today_definitions`. Each node
/// below it is a `today_piece`: a definition, or a docstring, whitespace or a comment that no definition follows.
///
/// ```
/// use weedle::syntax::{syntax_in, Dialect};
///
/// let text = "[Exposed=*] interface Window { attribute ObservableArray<Node> nodes; };";
/// let nodes = syntax_in(text, Dialect::Today)?;
/// let types = nodes.iter().filter(|it| it.name() == "today_type");
/// assert_eq!(types.map(|it| it.text_in(text)).collect::<Vec<_>>(), ["ObservableArray<Node> ", "Node"]);
/// # Ok::<(), weedle::syntax::Fault>(())
/// ```
///
/// # Errors
///
/// A [`Fault`], as of [`syntax`].
pub fn syntax_in(text: &str, dialect: Dialect) -> Result<Vec<Node>, Fault> {
    let (nodes, rest) = library::nodes_of(dialect.whole(), text)?;
    if rest == text.len() {
        Ok(nodes)
    } else {
        Err(Fault::Refused(rest))
    }
}
