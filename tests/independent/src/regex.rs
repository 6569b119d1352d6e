//! Regular expressions, matched by Brzozowski derivatives.
//!
//! Equal expressions have one id, and the simplifications keep the empty language from hiding: every expression but
//! [`EMPTY`] matches some text. So a start of a text can be continued to a match exactly when its derivative is not `EMPTY`.
//!
//! A symbol is a byte, or [`CRLF`]: CR followed by LF, which is one line end of two bytes and never two line ends.

use std::collections::HashMap;

/// The symbol of CR followed by LF.
pub const CRLF: usize = 256;
const SYMBOLS: usize = 257;
const SET_WORDS: usize = SYMBOLS.div_ceil(64);

/// The id of a regular expression in its [`Regexes`].
#[derive(Clone, Copy, PartialEq, Eq, PartialOrd, Ord, Hash, Debug)]
pub struct Regex(u32);

/// Matches no text.
pub const EMPTY: Regex = Regex(0);
/// Matches the empty text alone.
pub const EPSILON: Regex = Regex(1);
/// Stands in the table of derivatives where none was taken yet.
const UNKNOWN: Regex = Regex(u32::MAX);

#[derive(Clone, PartialEq, Eq, Hash)]
enum Node {
    Empty,
    Epsilon,
    OneOf([u64; SET_WORDS]),
    Then(Regex, Regex),
    Either(Vec<Regex>),
    Many(Regex),
}

/// The regular expressions built so far, with the derivatives taken so far.
pub struct Regexes {
    nodes: Vec<Node>,
    ids: HashMap<Node, Regex>,
    nullable: Vec<bool>,
    derivatives: Vec<Regex>,
}

/// The symbol that starts at a place of the text, and its length in bytes.
pub fn symbol_at(text: &[u8], place: usize) -> (usize, usize) {
    match text[place..] {
        [b'\r', b'\n', ..] => (CRLF, 2),
        [byte, ..] => (usize::from(byte), 1),
        [] => unreachable!("a symbol behind the end of the text"),
    }
}

impl Regexes {
    pub fn new() -> Regexes {
        let mut regexes = Regexes {
            nodes: Vec::new(),
            ids: HashMap::new(),
            nullable: Vec::new(),
            derivatives: Vec::new(),
        };
        assert_eq!(regexes.id(Node::Empty), EMPTY);
        assert_eq!(regexes.id(Node::Epsilon), EPSILON);
        regexes
    }

    /// The id of a node, which is new unless an equal node has one.
    fn id(&mut self, node: Node) -> Regex {
        if let Some(&id) = self.ids.get(&node) {
            return id;
        }
        let id = Regex(self.nodes.len() as u32);
        self.nullable.push(self.is_nullable(&node));
        self.derivatives.resize(self.derivatives.len() + SYMBOLS, UNKNOWN);
        self.nodes.push(node.clone());
        self.ids.insert(node, id);
        id
    }

    fn is_nullable(&self, node: &Node) -> bool {
        match node {
            Node::Empty | Node::OneOf(_) => false,
            Node::Epsilon | Node::Many(_) => true,
            Node::Then(first, second) => self.nullable(*first) && self.nullable(*second),
            Node::Either(choices) => choices.iter().any(|&choice| self.nullable(choice)),
        }
    }

    /// Whether the empty text matches.
    pub fn nullable(&self, regex: Regex) -> bool {
        self.nullable[regex.0 as usize]
    }

    /// One symbol out of some.
    pub fn one_of(&mut self, symbols: impl IntoIterator<Item = usize>) -> Regex {
        let mut set = [0; SET_WORDS];
        for symbol in symbols {
            set[symbol / 64] |= 1 << (symbol % 64);
        }
        self.set(set)
    }

    fn set(&mut self, set: [u64; SET_WORDS]) -> Regex {
        if set == [0; SET_WORDS] {
            return EMPTY;
        }
        self.id(Node::OneOf(set))
    }

    pub fn then(&mut self, first: Regex, second: Regex) -> Regex {
        match self.nodes[first.0 as usize].clone() {
            Node::Empty => EMPTY,
            Node::Epsilon => second,
            _ if second == EMPTY => EMPTY,
            _ if second == EPSILON => first,
            Node::Then(head, tail) => {
                let rest = self.then(tail, second);
                self.then(head, rest)
            }
            _ => self.id(Node::Then(first, second)),
        }
    }

    /// Choices are a set: their order and number of times do not matter, and sets of symbols are joined.
    pub fn either(&mut self, choices: &[Regex]) -> Regex {
        let mut rest = Vec::new();
        let mut symbols = [0; SET_WORDS];
        for &choice in choices {
            self.add_choice(choice, &mut rest, &mut symbols);
        }
        let symbols = self.set(symbols);
        if symbols != EMPTY {
            rest.push(symbols);
        }
        rest.sort_unstable();
        rest.dedup();
        match rest[..] {
            [] => EMPTY,
            [only] => only,
            _ => self.id(Node::Either(rest)),
        }
    }

    fn add_choice(&self, choice: Regex, rest: &mut Vec<Regex>, symbols: &mut [u64; SET_WORDS]) {
        match &self.nodes[choice.0 as usize] {
            Node::Empty => (),
            Node::OneOf(set) => symbols.iter_mut().zip(set).for_each(|(word, more)| *word |= more),
            Node::Either(choices) => choices
                .iter()
                .for_each(|&choice| self.add_choice(choice, rest, symbols)),
            _ => rest.push(choice),
        }
    }

    /// Zero or more.
    pub fn many(&mut self, regex: Regex) -> Regex {
        match self.nodes[regex.0 as usize] {
            Node::Empty | Node::Epsilon => EPSILON,
            Node::Many(_) => regex,
            _ => self.id(Node::Many(regex)),
        }
    }

    /// One or more.
    pub fn some(&mut self, regex: Regex) -> Regex {
        let more = self.many(regex);
        self.then(regex, more)
    }

    /// All of them in this order.
    pub fn all(&mut self, parts: &[Regex]) -> Regex {
        parts.iter().rev().fold(EPSILON, |rest, &part| self.then(part, rest))
    }

    pub fn word(&mut self, word: &[u8]) -> Regex {
        let symbols: Vec<Regex> = word.iter().map(|&byte| self.one_of([usize::from(byte)])).collect();
        self.all(&symbols)
    }

    pub fn optional(&mut self, regex: Regex) -> Regex {
        self.either(&[EPSILON, regex])
    }

    pub fn times(&mut self, regex: Regex, times: usize) -> Regex {
        (0..times).fold(EPSILON, |rest, _| self.then(regex, rest))
    }

    pub fn at_most(&mut self, regex: Regex, times: usize) -> Regex {
        (0..times).fold(EPSILON, |rest, _| {
            let longer = self.then(regex, rest);
            self.optional(longer)
        })
    }

    /// What may follow the symbol.
    #[inline]
    pub fn derivative(&mut self, regex: Regex, symbol: usize) -> Regex {
        let slot = regex.0 as usize * SYMBOLS + symbol;
        if self.derivatives[slot] == UNKNOWN {
            self.derivatives[slot] = self.new_derivative(regex, symbol);
        }
        self.derivatives[slot]
    }

    fn new_derivative(&mut self, regex: Regex, symbol: usize) -> Regex {
        match self.nodes[regex.0 as usize].clone() {
            Node::Empty | Node::Epsilon => EMPTY,
            Node::OneOf(set) if set[symbol / 64] >> (symbol % 64) & 1 == 1 => EPSILON,
            Node::OneOf(_) => EMPTY,
            Node::Then(first, second) => self.derivative_of_then(first, second, symbol),
            Node::Either(choices) => {
                let after: Vec<Regex> = choices.iter().map(|&choice| self.derivative(choice, symbol)).collect();
                self.either(&after)
            }
            Node::Many(once) => {
                let after = self.derivative(once, symbol);
                self.then(after, regex)
            }
        }
    }

    fn derivative_of_then(&mut self, first: Regex, second: Regex, symbol: usize) -> Regex {
        let after = self.derivative(first, symbol);
        let within = self.then(after, second);
        if !self.nullable(first) {
            return within;
        }
        let behind = self.derivative(second, symbol);
        self.either(&[within, behind])
    }

    /// The longest start of the text that some match begins with, and whether it is a match itself.
    pub fn longest_start(&mut self, regex: Regex, text: &[u8]) -> (usize, bool) {
        let mut state = regex;
        let mut place = 0;
        while place < text.len() {
            let (symbol, length) = symbol_at(text, place);
            let next = self.derivative(state, symbol);
            if next == EMPTY {
                break;
            }
            state = next;
            place += length;
        }
        (place, self.nullable(state))
    }

    pub fn matches(&mut self, regex: Regex, text: &[u8]) -> bool {
        self.longest_start(regex, text) == (text.len(), true)
    }
}

#[cfg(test)]
mod tests {
    use super::*;

    #[test]
    fn the_empty_language_is_always_found() {
        let mut r = Regexes::new();
        let a = r.word(b"a");
        let none = r.one_of([]);
        assert_eq!(none, EMPTY);
        assert_eq!(r.then(a, EMPTY), EMPTY);
        assert_eq!(r.then(EMPTY, a), EMPTY);
        assert_eq!(r.either(&[EMPTY, EMPTY]), EMPTY);
        assert_eq!(r.many(EMPTY), EPSILON);
    }

    #[test]
    fn equal_expressions_have_one_id() {
        let mut r = Regexes::new();
        let (a, b, c) = (r.word(b"xa"), r.word(b"xb"), r.word(b"xc"));
        let left = r.either(&[a, b]);
        let left = r.either(&[left, c]);
        let right = r.either(&[c, b]);
        assert_eq!(left, r.either(&[a, right, a]));
        let front = r.then(a, b);
        let back = r.then(b, c);
        assert_eq!(r.then(front, c), r.then(a, back));
    }

    #[test]
    fn starts_and_matches() {
        let mut r = Regexes::new();
        let ab = r.word(b"ab");
        let up_to_two = r.at_most(ab, 2);
        assert_eq!(r.longest_start(up_to_two, b"aba"), (3, false));
        assert_eq!(r.longest_start(up_to_two, b"abab"), (4, true));
        assert_eq!(r.longest_start(up_to_two, b"ababab"), (4, true));
        let three = r.times(ab, 3);
        assert!(r.matches(three, b"ababab") && !r.matches(three, b"abab"));
        let some = r.some(ab);
        assert!(r.matches(some, b"ab") && !r.matches(some, b""));
    }

    #[test]
    fn cr_and_lf_are_one_symbol() {
        let mut r = Regexes::new();
        let end = r.one_of([usize::from(b'\r'), usize::from(b'\n'), CRLF]);
        let two = r.times(end, 2);
        assert!(r.matches(end, b"\r\n") && !r.matches(two, b"\r\n"));
        assert!(r.matches(two, b"\n\r") && r.matches(two, b"\r\r\n") && r.matches(two, b"\r\n\n"));
    }
}
