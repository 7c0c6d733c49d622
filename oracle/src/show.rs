//! An image in a form that people can read: as program text where it is a program, as a table where not.

use crate::generate::grow::REGISTRY;
use crate::image::{self, kind::*, Image, Role};
use crate::source;

/// Program text, in the form that source.rs reads.
pub fn image(bytes: &[u8]) -> String {
    match image::read(bytes) {
        Ok(image) => program(&image),
        Err(fault) => format!("(no program: code {} at {})\n{}", fault.code, fault.place, table(bytes)),
    }
}

/// How many records of a kind are shown.
const SHOWN: usize = 40;

/// The header and whatever records there are.
fn table(bytes: &[u8]) -> String {
    let words: Vec<u32> = bytes.chunks_exact(4).map(|b| u32::from_le_bytes([b[0], b[1], b[2], b[3]])).collect();
    let mut text = format!("{} bytes; header {:?}\n", bytes.len(), &words[..words.len().min(8)]);
    if words.len() < 8 {
        return text;
    }
    // A count may be far above what is there.
    let (n, m) = (words[1] as usize, words[3] as usize);
    let records = |text: &mut String, what: &str, records: Vec<&[u32]>| {
        for (i, record) in records.iter().take(SHOWN).enumerate() {
            text.push_str(&format!("{} {}: {:?}\n", what, i, record));
        }
        if records.len() > SHOWN {
            text.push_str(&format!("and {} more\n", records.len() - SHOWN));
        }
    };
    records(&mut text, "name", words[8..].chunks_exact(5).take(n).collect());
    let from = 8usize.saturating_add(n.saturating_mul(5)).min(words.len());
    records(&mut text, "node", words[from..].chunks_exact(6).take(m).collect());
    let from = from.saturating_add(m.saturating_mul(6)).saturating_mul(4).min(bytes.len());
    let rest = &bytes[from..];
    text.push_str(&format!(
        "text of {} bytes {:?}\n",
        rest.len(),
        String::from_utf8_lossy(&rest[..rest.len().min(200)])
    ));
    text
}

struct Printer<'a> {
    image: &'a Image,
    text: String,
}

fn program(image: &Image) -> String {
    let mut printer = Printer { image, text: String::new() };
    for (i, name) in image.names.iter().enumerate() {
        let named = |kinds: &[u32]| image.nodes.iter().any(|node| kinds.contains(&node.kind) && node.arg == i as u32);
        // What source.rs takes for a builtin or a function must be told apart, and an unused name told at all.
        let implied = REGISTRY.iter().any(|row| row.0 == name.text) || named(&[DEF]);
        let role = match name.role {
            Role::Plain if named(&[FOR, PARAM, VARIABLE]) && !implied => continue,
            Role::Plain => "plain".to_string(),
            Role::Exactly(p) => format!("exactly {}", p),
            Role::Between(p, q) => format!("between {} {}", p, q),
            Role::Any => "any".to_string(),
            Role::Takes(p) => format!("takes {}", p),
        };
        printer.text.push_str(&format!("@{} {}\n", name.text, role));
    }
    printer.block(0, 0);
    if image.nodes.len() == 1 {
        printer.text.push_str("# no statements\n");
    }
    printer.text
}

impl Printer<'_> {
    fn children(&self, node: usize) -> Vec<usize> {
        let mut at = node + 1;
        let mut found = Vec::new();
        for _ in 0..self.image.nodes[node].children {
            found.push(at);
            at = self.image.nodes[at].end as usize;
        }
        found
    }

    fn name(&self, node: usize) -> String {
        let text = &self.image.names[self.image.nodes[node].arg as usize].text;
        let word = text.bytes().all(|b| b.is_ascii_alphanumeric() || b == b'_') && !text.as_bytes()[0].is_ascii_digit();
        if word && !source::WORDS.contains(&text.as_str()) {
            text.clone()
        } else {
            format!("`{}`", text)
        }
    }

    fn line(&mut self, indent: usize, line: &str) {
        self.text.push_str(&format!("{}{}\n", "  ".repeat(indent), line));
    }

    fn block(&mut self, node: usize, indent: usize) {
        for statement in self.children(node) {
            self.statement(statement, indent);
        }
    }

    fn statement(&mut self, node: usize, indent: usize) {
        let parts = self.children(node);
        match self.image.nodes[node].kind {
            BREAK => self.line(indent, "break"),
            CONTINUE => self.line(indent, "continue"),
            PASS => self.line(indent, "pass"),
            CLASS => self.line(indent, "class"),
            ASSIGN => {
                let line = format!("{} = {}", self.expression(parts[0]), self.expression(parts[1]));
                self.line(indent, &line);
            }
            EXPR => {
                let line = self.expression(parts[0]);
                self.line(indent, &line);
            }
            RETURN => {
                let line = format!("return {}", self.expression(parts[0]));
                self.line(indent, &line);
            }
            IF => {
                for (i, arm) in parts.chunks(2).enumerate() {
                    let line = match (i, arm.len()) {
                        (_, 1) => "else:".to_string(),
                        (0, _) => format!("if {}:", self.expression(arm[0])),
                        _ => format!("elif {}:", self.expression(arm[0])),
                    };
                    self.line(indent, &line);
                    self.block(arm[arm.len() - 1], indent + 1);
                }
            }
            WHILE => {
                let line = format!("while {}:", self.expression(parts[0]));
                self.line(indent, &line);
                self.block(parts[1], indent + 1);
            }
            FOR => {
                let line = format!("for {} in {}:", self.name(node), self.expression(parts[0]));
                self.line(indent, &line);
                self.block(parts[1], indent + 1);
            }
            _ => {
                let (body, params) = parts.split_last().expect("a Def has a Block");
                let params: Vec<String> = params.iter().map(|param| self.name(*param)).collect();
                let line = format!("def {}({}):", self.name(node), params.join(", "));
                self.line(indent, &line);
                self.block(*body, indent + 1);
            }
        }
    }

    fn expression(&self, node: usize) -> String {
        const BINARY_OPS: [&str; 14] = ["+", "-", "*", "/", "//", "%", "==", "!=", "<", "<=", ">", ">=", "and", "or"];
        let parts = self.children(node);
        let all = |from: usize| -> Vec<String> { parts[from..].iter().map(|part| self.expression(*part)).collect() };
        // What another expression is written behind needs parentheses, unless it stands by itself.
        let inner = |part: usize| {
            let text = self.expression(part);
            match self.image.nodes[part].kind {
                UNARY | BINARY => format!("({})", text),
                // A number and a point would be read as another number.
                LITERAL if text.starts_with('1') => format!("({})", text),
                _ => text,
            }
        };
        let arg = self.image.nodes[node].arg as usize;
        match self.image.nodes[node].kind {
            LITERAL => ["True", "1", "\"s\"", "1.0", "None"][arg].to_string(),
            VARIABLE => self.name(node),
            UNARY => format!("{}{}", ["not ", "-", "+"][arg], inner(parts[0])),
            BINARY => format!("{} {} {}", inner(parts[0]), BINARY_OPS[arg], inner(parts[1])),
            CALL => format!("{}({})", inner(parts[0]), all(1).join(", ")),
            ATTRIBUTE => format!("{}.attr", inner(parts[0])),
            LIST => format!("[{}]", all(0).join(", ")),
            DICT => {
                let pairs: Vec<String> = all(0).chunks(2).map(|pair| format!("{}: {}", pair[0], pair[1])).collect();
                format!("{{{}}}", pairs.join(", "))
            }
            TUPLE if parts.len() == 1 => format!("({},)", all(0)[0]),
            TUPLE => format!("({})", all(0).join(", ")),
            SET if parts.is_empty() => "{,}".to_string(),
            SET => format!("{{{}}}", all(0).join(", ")),
            TREE_SET => format!("t{{{}}}", all(0).join(", ")),
            INDEX => format!("{}[{}]", inner(parts[0]), self.expression(parts[1])),
            _ => "lambda".to_string(),
        }
    }
}
