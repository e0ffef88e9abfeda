//! The nodes of a rule, and the place in them: what values are made of.

use crate::syntax::{Fault, Node};
use crate::{library, rules, Err, Error, IResult, Parse};
use nom::error::ErrorKind;

/// How deep nodes may be in one another. Values are made and dropped by recursion: without optimization that takes
/// up to 300 bytes of stack a node, and the 2 MB of a thread have to hold it.
const MOST_DEPTH: u32 = 6_100;

/// The nodes of a rule in preorder, and the one where we are. The last of them is no rule's: it ends all before it.
#[derive(Debug)]
pub struct Cursor<'a> {
    text: &'a str,
    nodes: Vec<Node>,
    at: usize,
}

/// Reads a value by the rule of its type, at the front of a text.
pub(crate) fn parse<'a, T: Parse<'a>>(input: &'a str) -> IResult<&'a str, T> {
    let (mut at, rest) = Cursor::of(T::__RULE, input).map_err(|fault| error_of(fault, input))?;
    let value = T::__build(&mut at);
    Ok((&input[rest..], value))
}

/// A fault, as weedle2 has it.
fn error_of(fault: Fault, input: &str) -> Err<Error<&str>> {
    match fault {
        Fault::Refused(_) => Err::Error(Error::new(input, ErrorKind::Fail)),
        Fault::NoMemory | Fault::TooLong => Err::Failure(Error::new(input, ErrorKind::TooLarge)),
    }
}

impl<'a> Cursor<'a> {
    /// The nodes of a rule at the front of a text, and the byte up to which it reads.
    fn of(rule: u16, text: &'a str) -> Result<(Self, usize), Fault> {
        let (mut nodes, rest) = library::nodes_of(rule, text)?;
        if nodes.iter().any(|node| node.depth > MOST_DEPTH) {
            return Err(Fault::TooLong);
        }
        nodes.push(Node {
            rule: rules::COUNT,
            ..Node::default()
        });
        let at = 0;
        Ok((Cursor { text, nodes, at }, rest))
    }

    #[inline]
    fn here(&self) -> Node {
        self.nodes[self.at]
    }

    /// Whether the node here is below one of this depth, which was left last.
    #[inline]
    pub(crate) fn is_below(&self, depth: u32) -> bool {
        self.here().depth > depth
    }

    /// Goes to the next node, and gives the depth of the one that is left.
    #[inline]
    pub(crate) fn enter(&mut self) -> u32 {
        let depth = self.here().depth;
        self.at += 1;
        depth
    }

    /// Goes past the node here, and past all below it.
    #[inline]
    pub(crate) fn skip(&mut self) {
        let depth = self.enter();
        while self.is_below(depth) {
            self.at += 1;
        }
    }

    /// Goes to the node below that a choice took, and gives its rule.
    #[inline]
    pub(crate) fn choice(&mut self) -> u32 {
        self.at += 1;
        self.here().rule
    }

    /// The part below the node here, if there is one.
    #[inline]
    pub(crate) fn option<T: Parse<'a>>(&mut self) -> Option<T> {
        let depth = self.enter();
        if self.is_below(depth) {
            Some(T::__build(self))
        } else {
            None
        }
    }

    /// The last part of a node of this depth: where it isn't read there may be no node of it.
    #[inline]
    pub(crate) fn last<T: Parse<'a>>(&mut self, depth: u32) -> Option<T> {
        if self.is_below(depth) {
            self.option()
        } else {
            None
        }
    }

    /// All below the node here.
    pub(crate) fn all<T: Parse<'a>>(&mut self) -> Vec<T> {
        let depth = self.enter();
        let mut list = Vec::new();
        while self.is_below(depth) {
            list.push(T::__build(self));
        }
        list
    }

    /// The items below the node here: one, and in a second node the others, each behind a separator.
    pub(crate) fn items<T: Parse<'a>>(&mut self) -> Vec<T> {
        let depth = self.enter();
        if !self.is_below(depth) {
            return Vec::new();
        }
        let mut list = vec![T::__build(self)];
        let depth = self.enter();
        while self.is_below(depth) {
            self.skip();
            list.push(T::__build(self));
        }
        list
    }

    /// What a rule read below the node here.
    #[inline]
    pub(crate) fn kept(&mut self, rule: u16) -> &'a str {
        let depth = self.enter();
        let mut found = "";
        while self.is_below(depth) {
            let node = self.here();
            if node.rule == u32::from(rule) {
                found = node.text_in(self.text);
            }
            self.at += 1;
        }
        found
    }

    /// The lines of a docstring, without what is in front of them, and joined by LFs.
    pub(crate) fn lines(&mut self) -> String {
        let depth = self.enter();
        let mut lines = Vec::new();
        while self.is_below(depth) {
            let node = self.here();
            if node.rule == u32::from(rules::PAST_LF) {
                let line = node.text_in(self.text);
                lines.push(line.strip_suffix('\n').unwrap_or(line));
            }
            self.at += 1;
        }
        lines.join("\n")
    }

    /// Whether the word below the node here is `true`.
    pub(crate) fn truth(&mut self) -> bool {
        let is_true = self.nodes[self.at + 1].rule == u32::from(rules::TRUE);
        self.skip();
        is_true
    }
}
