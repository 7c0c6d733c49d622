//! A small reader of program text, so that images can be written down and read by people: Python's
//! statements and expressions as far as the image has nodes for them, with their byte offsets as spans.
//!
//! - `class` stands for a class statement and `lambda` for a lambda: their insides do not matter to T. `t{..}` is
//!   a tree set and `{,}` an empty set. A block may be empty.
//! - A name is letters, digits and underscores, or anything between backquotes.
//! - Lines `@NAME plain`, `@NAME exactly P`, `@NAME between P Q`, `@NAME any`, `@NAME takes P` give a name its
//!   role. A builtin's text has its registry role if no line says otherwise, and the name of a `def` takes as
//!   many arguments as it has parameters.

use crate::generate::grow::REGISTRY;
use crate::image::kind::*;
use crate::program::*;

#[derive(Debug, Clone, PartialEq)]
enum Token {
    Name(String),
    Int,
    Float,
    Text,
    /// An operator, bracket, comma, colon, or a word of the language.
    Mark(&'static str),
    /// The end of a statement that is followed by another on the same line, or of the line.
    End,
    /// The end of a line, with the indentation of the next one.
    Line(usize),
}

/// Longer ones first, so that none hides behind its beginning.
const MARKS: [&str; 27] = [
    "//", "==", "!=", "<=", ">=", "t{", "(", ")", "[", "]", "{", "}", ",", ":", ".", "+", "-", "*", "/", "%", "<", ">",
    "=", ";", "\n", "#", "@",
];
pub const WORDS: [&str; 19] = [
    "break", "continue", "pass", "class", "return", "if", "elif", "else", "while", "for", "in", "def", "lambda", "not",
    "and", "or", "True", "False", "None",
];

/// Operators in the order of ast.rs: the index is the arg.
const BINARY_OPS: [&str; 14] = ["+", "-", "*", "/", "//", "%", "==", "!=", "<", "<=", ">", ">=", "and", "or"];
/// What binds loosest stands first. `not` stands between the second and the third.
const LEVELS: [&[&str]; 5] =
    [&["or"], &["and"], &["==", "!=", "<", "<=", ">", ">="], &["+", "-"], &["*", "/", "//", "%"]];
const NOT_LEVEL: usize = 2;

struct Reader {
    tokens: Vec<(Token, usize, usize)>,
    at: usize,
    program: Program,
    /// Names whose role a line gave.
    told: Vec<u32>,
}

type Read<T> = Result<T, String>;

/// The program that a text spells.
pub fn parse(text: &str) -> Read<Program> {
    let mut reader = Reader { tokens: Vec::new(), at: 0, program: Program::new(), told: Vec::new() };
    let code = reader.role_lines(text)?;
    reader.tokens = tokens(text, code)?;
    let body = reader.block(0)?;
    if reader.at < reader.tokens.len() {
        return Err(format!("{:?} at byte {} is not expected", reader.tokens[reader.at].0, reader.tokens[reader.at].1));
    }
    for (text, role, p, q) in REGISTRY.iter() {
        let known = reader.program.names.iter().position(|name| name.text == text.as_bytes());
        if let Some(index) = known {
            if !reader.told.contains(&(index as u32)) {
                reader.program.role(text, *role, *p, *q);
            }
        }
    }
    reader.program.body = body;
    Ok(reader.program)
}

fn word_byte(b: u8) -> bool {
    b.is_ascii_alphanumeric() || b == b'_'
}

/// The tokens of the text from byte `from` on.
fn tokens(text: &str, from: usize) -> Read<Vec<(Token, usize, usize)>> {
    let bytes = text.as_bytes();
    let mut found: Vec<(Token, usize, usize)> = Vec::new();
    let mut at = from;
    let mut brackets = 0;
    while at < bytes.len() {
        let start = at;
        let b = bytes[at];
        if b == b' ' {
            at += 1;
            continue;
        }
        if b == b'#' {
            while at < bytes.len() && bytes[at] != b'\n' {
                at += 1;
            }
            continue;
        }
        if b == b'"' {
            at += 1;
            while at < bytes.len() && bytes[at] != b'"' {
                at += 1;
            }
            at += 1;
            found.push((Token::Text, start, at));
            continue;
        }
        if b == b'`' {
            at += 1;
            while at < bytes.len() && bytes[at] != b'`' {
                at += 1;
            }
            at += 1;
            found.push((Token::Name(text[start + 1..at - 1].to_string()), start, at));
            continue;
        }
        if b.is_ascii_digit() {
            while at < bytes.len() && (bytes[at].is_ascii_digit() || bytes[at] == b'.') {
                at += 1;
            }
            let float = text[start..at].contains('.');
            found.push((if float { Token::Float } else { Token::Int }, start, at));
            continue;
        }
        if word_byte(b) && !text[at..].starts_with("t{") {
            while at < bytes.len() && word_byte(bytes[at]) {
                at += 1;
            }
            let word = &text[start..at];
            let token = match WORDS.iter().find(|known| **known == word) {
                _ if word == "False" => Token::Mark("True"),
                Some(known) => Token::Mark(known),
                None => Token::Name(word.to_string()),
            };
            found.push((token, start, at));
            continue;
        }
        let mark = MARKS.iter().find(|mark| text[at..].starts_with(**mark));
        let mark = *mark.ok_or_else(|| format!("no token at byte {}", at))?;
        at += mark.len();
        match mark {
            "(" | "[" | "{" | "t{" => brackets += 1,
            ")" | "]" | "}" => brackets -= 1,
            _ => {}
        }
        if mark == ";" {
            found.push((Token::End, start, at));
        } else if mark == "\n" {
            if brackets > 0 {
                continue;
            }
            // Blank lines and comments say nothing of indentation.
            let rest = &text[at..];
            let line = rest.split('\n').next().unwrap_or("");
            let indent = line.len() - line.trim_start_matches(' ').len();
            if line.trim().is_empty() || line.trim().starts_with('#') {
                continue;
            }
            found.push((Token::End, start, start));
            found.push((Token::Line(indent), start, at));
        } else {
            found.push((Token::Mark(mark), start, at));
        }
    }
    found.push((Token::End, at, at));
    Ok(found)
}

impl Reader {
    /// Reads the `@` lines and gives the byte behind them.
    fn role_lines(&mut self, text: &str) -> Read<usize> {
        let mut at = 0;
        for line in text.split_inclusive('\n') {
            let stripped = line.trim();
            if !stripped.is_empty() && !stripped.starts_with('@') {
                break;
            }
            at += line.len();
            if stripped.is_empty() {
                continue;
            }
            let words: Vec<&str> = stripped[1..].split_whitespace().collect();
            let number = |i: usize| -> Read<u32> {
                let word = words.get(i).ok_or_else(|| format!("{:?} wants a number", stripped))?;
                word.parse::<u32>().map_err(|e| format!("{:?}: {}", stripped, e))
            };
            let (role, p, q) = match words.get(1) {
                Some(&"plain") => (0, 0, 0),
                Some(&"exactly") => (1, number(2)?, 0),
                Some(&"between") => (2, number(2)?, number(3)?),
                Some(&"any") => (3, 0, 0),
                Some(&"takes") => (4, number(2)?, 0),
                _ => return Err(format!("{:?} gives no role", stripped)),
            };
            let index = self.program.role(words[0].trim_matches('`'), role, p, q);
            self.told.push(index);
        }
        Ok(at)
    }

    fn peek(&self) -> Option<&Token> {
        self.tokens.get(self.at).map(|token| &token.0)
    }

    fn is(&self, mark: &str) -> bool {
        match self.peek() {
            Some(Token::Mark(known)) => *known == mark,
            _ => false,
        }
    }

    fn take(&mut self, mark: &str) -> bool {
        let found = self.is(mark);
        if found {
            self.at += 1;
        }
        found
    }

    fn want(&mut self, mark: &str) -> Read<()> {
        if self.take(mark) {
            return Ok(());
        }
        Err(format!("{:?} wanted at byte {}, found {:?}", mark, self.start(), self.peek()))
    }

    fn name(&mut self) -> Read<u32> {
        match self.peek().cloned() {
            Some(Token::Name(text)) => {
                self.at += 1;
                Ok(self.program.name(&text))
            }
            other => Err(format!("a name wanted at byte {}, found {:?}", self.start(), other)),
        }
    }

    /// Where the next token starts.
    fn start(&self) -> usize {
        self.tokens.get(self.at).map_or(0, |token| token.1)
    }

    /// Where the last token ended.
    fn end(&self) -> usize {
        self.tokens[self.at - 1].2
    }

    // ---- statements

    /// The statements of the lines with this indentation.
    fn block(&mut self, indent: usize) -> Read<Vec<Item>> {
        let mut body = Vec::new();
        loop {
            while let Some(Token::End) = self.peek() {
                self.at += 1;
            }
            match self.peek() {
                Some(Token::Line(next)) if *next == indent => self.at += 1,
                Some(Token::Line(_)) | None => return Ok(body),
                Some(_) => body.push(self.statement(indent)?),
            }
        }
    }

    /// What stands behind a colon: statements on the same line, or on further lines that are indented more.
    fn body(&mut self, indent: usize) -> Read<Item> {
        self.want(":")?;
        let mut body = Vec::new();
        while !matches!(self.peek(), Some(Token::End) | None) {
            body.push(self.simple_statement()?);
            // A semicolon goes on with the same body, the end of the line does not.
            let semicolon =
                self.tokens.get(self.at).map_or(false, |(token, start, end)| *token == Token::End && end > start);
            if !semicolon {
                return Ok(block(body));
            }
            self.at += 1;
        }
        if let Some((Token::Line(next), _, _)) = self.tokens.get(self.at + 1) {
            let next = *next;
            if next > indent {
                self.at += 2;
                body = self.block(next)?;
                // The block has taken the end of its last line: the next statement looks for it again.
                while let Some(Token::End) = self.tokens.get(self.at - 1).map(|token| &token.0) {
                    self.at -= 1;
                }
            }
        }
        Ok(block(body))
    }

    fn statement(&mut self, indent: usize) -> Read<Item> {
        let start = self.start();
        let item = if self.take("if") {
            let mut parts = vec![self.expression()?, self.body(indent)?];
            loop {
                if self.next_line_is("elif", indent) {
                    parts.push(self.expression()?);
                    parts.push(self.body(indent)?);
                } else if self.next_line_is("else", indent) {
                    parts.push(self.body(indent)?);
                    break;
                } else {
                    break;
                }
            }
            Item::new(IF, 0, parts)
        } else if self.take("while") {
            Item::new(WHILE, 0, vec![self.expression()?, self.body(indent)?])
        } else if self.take("for") {
            let name = self.name()?;
            self.want("in")?;
            Item::new(FOR, name, vec![self.expressions()?, self.body(indent)?])
        } else if self.take("def") {
            let name = self.name()?;
            self.want("(")?;
            let mut parts = Vec::new();
            while !self.take(")") {
                parts.push(Item::new(PARAM, self.name()?, Vec::new()));
                self.take(",");
            }
            if !self.told.contains(&name) {
                self.told.push(name);
                let named = &mut self.program.names[name as usize];
                named.role = 4;
                named.p = parts.len() as u32;
            }
            parts.push(self.body(indent)?);
            Item::new(DEF, name, parts)
        } else {
            return self.simple_statement();
        };
        Ok(item.at(start, self.end()))
    }

    /// Takes the word if it starts the next line of this indentation.
    fn next_line_is(&mut self, word: &str, indent: usize) -> bool {
        let mut at = self.at;
        while let Some((Token::End, _, _)) = self.tokens.get(at) {
            at += 1;
        }
        let line = self.tokens.get(at).map(|token| token.0.clone());
        let next = self.tokens.get(at + 1).map(|token| token.0.clone());
        let found = line == Some(Token::Line(indent)) && matches!(next, Some(Token::Mark(known)) if known == word);
        if found {
            self.at = at + 2;
        }
        found
    }

    fn simple_statement(&mut self) -> Read<Item> {
        let start = self.start();
        for (word, kind) in [("break", BREAK), ("continue", CONTINUE), ("pass", PASS), ("class", CLASS)].iter() {
            if self.take(word) {
                return Ok(simple(*kind).at(start, self.end()));
            }
        }
        if self.take("return") {
            let value = self.expressions()?;
            return Ok(returned(value).at(start, self.end()));
        }
        let first = self.expressions()?;
        if self.take("=") {
            let value = self.expressions()?;
            return Ok(assign(first, value).at(start, self.end()));
        }
        Ok(expr(first).at(start, self.end()))
    }

    // ---- expressions

    /// An expression, or a tuple without parentheses.
    fn expressions(&mut self) -> Read<Item> {
        let start = self.start();
        let first = self.expression()?;
        if !self.is(",") {
            return Ok(first);
        }
        let mut parts = vec![first];
        while self.take(",") {
            if matches!(self.peek(), Some(Token::End) | None) || self.is("=") || self.is(":") {
                break;
            }
            parts.push(self.expression()?);
        }
        Ok(tuple(parts).at(start, self.end()))
    }

    fn expression(&mut self) -> Read<Item> {
        self.level(0)
    }

    fn level(&mut self, level: usize) -> Read<Item> {
        let start = self.start();
        if level == NOT_LEVEL && self.take("not") {
            let inner = self.level(level)?;
            return Ok(unary(0, inner).at(start, self.end()));
        }
        if level == LEVELS.len() {
            return self.signed();
        }
        let mut left = self.level(level + 1)?;
        while let Some(op) = LEVELS[level].iter().find(|op| self.is(op)) {
            self.at += 1;
            let arg = BINARY_OPS.iter().position(|known| known == op).expect("a binary operator") as u32;
            let right =
                if level < NOT_LEVEL && self.is("not") { self.level(NOT_LEVEL)? } else { self.level(level + 1)? };
            left = binary(arg, left, right).at(start, self.end());
        }
        Ok(left)
    }

    fn signed(&mut self) -> Read<Item> {
        let start = self.start();
        for (mark, op) in [("-", 1), ("+", 2)].iter() {
            if self.take(mark) {
                let inner = self.signed()?;
                return Ok(unary(*op, inner).at(start, self.end()));
            }
        }
        let mut inner = self.atom()?;
        loop {
            if self.take("(") {
                let args = self.until(")")?;
                inner = call(inner, args).at(start, self.end());
            } else if self.take("[") {
                let at = self.expressions()?;
                self.want("]")?;
                inner = index(inner, at).at(start, self.end());
            } else if self.take(".") {
                // The attribute's name stands in no node.
                self.at += 1;
                inner = attribute(inner).at(start, self.end());
            } else {
                return Ok(inner);
            }
        }
    }

    /// Expressions up to a closing bracket.
    fn until(&mut self, closing: &str) -> Read<Vec<Item>> {
        let mut parts = Vec::new();
        while !self.take(closing) {
            parts.push(self.expression()?);
            if !self.is(closing) {
                self.want(",")?;
            }
        }
        Ok(parts)
    }

    fn atom(&mut self) -> Read<Item> {
        let start = self.start();
        let token = self.peek().cloned();
        self.at += 1;
        let item = match token {
            Some(Token::Int) => literal(INT),
            Some(Token::Float) => literal(FLOAT),
            Some(Token::Text) => literal(STRING),
            Some(Token::Mark("True")) => literal(BOOL),
            Some(Token::Mark("None")) => literal(NONE),
            Some(Token::Mark("lambda")) => lambda(),
            Some(Token::Name(text)) => variable(self.program.name(&text)),
            Some(Token::Mark("[")) => list(self.until("]")?),
            Some(Token::Mark("t{")) => tree_set(self.until("}")?),
            Some(Token::Mark("(")) => {
                if self.take(")") {
                    return Ok(tuple(Vec::new()).at(start, self.end()));
                }
                let first = self.expression()?;
                if self.take(")") {
                    return Ok(first);
                }
                self.want(",")?;
                let mut parts = vec![first];
                parts.extend(self.until(")")?);
                tuple(parts)
            }
            Some(Token::Mark("{")) => self.dict_or_set()?,
            other => return Err(format!("no expression at byte {}: {:?}", start, other)),
        };
        Ok(item.at(start, self.end()))
    }

    fn dict_or_set(&mut self) -> Read<Item> {
        if self.take("}") {
            return Ok(dict(Vec::new()));
        }
        // Python has no text for an empty set.
        if self.take(",") {
            self.want("}")?;
            return Ok(set(Vec::new()));
        }
        let mut parts = vec![self.expression()?];
        if !self.is(":") {
            if self.take(",") {
                parts.extend(self.until("}")?);
            } else {
                self.want("}")?;
            }
            return Ok(set(parts));
        }
        loop {
            self.want(":")?;
            parts.push(self.expression()?);
            if self.take("}") {
                return Ok(dict(parts));
            }
            self.want(",")?;
            if self.take("}") {
                return Ok(dict(parts));
            }
            parts.push(self.expression()?);
        }
    }
}
