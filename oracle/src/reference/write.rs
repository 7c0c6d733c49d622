//! What the reference's walk writes: messages and sheets.

use super::bound;
use super::first;
use super::read::Image;
use super::types::*;
use super::walk::{Piece, Refusal, Walk};
use crate::answer::{Answer, Rooms};
use crate::mistakes::{Mind, Mistake::*};

/// T's texts, with a part for each `_`.
fn template(code: u32) -> &'static str {
    match code {
        20 => "SyntaxError: 'break' outside loop",
        21 => "SyntaxError: 'continue' outside loop",
        22 => "TypeError: inconsistent return types in function: _ vs _",
        23 => "TypeError: variable '_' has incompatible types across branches",
        24 => "TypeError: type '_' is not iterable",
        25 => "TypeError: cannot assign value of type _ to variable of type _",
        26 => "TypeError: cannot unpack tuple of length _ into _ variables",
        27 => "TypeError: cannot unpack non-iterable type _",
        28 => "Invalid assignment target",
        29 => "TypeError: unsupported operand types for +: _ and _",
        30 => "TypeError: unsupported operand types for *: _ and _",
        31 => "TypeError: cannot compare _ and _",
        32 => "TypeError: equality operands must have same type, got _ and _",
        33 => "TypeError: expected numeric types, got _ and _",
        34 => "TypeError: expected Int or Float, got _",
        35 => "TypeError: expected Bool, got _",
        36 => "TypeError: condition must be Bool",
        37 => "ArityError: _() takes _ argument(s) but _ given",
        38 => "ArityError: function '_' takes _ positional arguments but _ were given",
        39 => "TypeError: input() prompt must be a string, got _",
        40 => "TypeError: object of type _ has no len()",
        41 => "TypeError: range() arguments must be integers, got _",
        42 => "TypeError: map() argument 1 must be callable, got _",
        43 => "TypeError: map() argument 2 must be iterable, got _",
        44 => "TypeError: filter() argument 1 must be callable, got _",
        45 => "TypeError: filter() argument 2 must be iterable, got _",
        46 => "TypeError: list indices must be integers, not _",
        47 => "TypeError: dictionary key type mismatch: expected _, got _",
        48 => "TypeError: tuple indices must be integers, not _",
        49 => "TypeError: string indices must be integers, not _",
        50 => "TypeError: type '_' is not subscriptable",
        other => unreachable!("{} is no typing code", other),
    }
}

pub fn refused(walk: &Walk, refusal: &Refusal, rooms: Rooms, mind: Mind) -> Answer {
    let span = walk.image.nodes[refusal.node].span;
    let message = fitting_message(&walk.types, refusal, rooms.message, mind);
    Answer {
        code: refusal.code,
        place: refusal.node as u32,
        span_start: span.0,
        span_end: span.1,
        second: first::second_span(walk, refusal, message.is_empty(), mind),
        sheet: Vec::new(),
        message,
    }
}

/// The message if it has room, else nothing.
fn fitting_message(types: &Types, refusal: &Refusal, room: usize, mind: Mind) -> Vec<u8> {
    let length = message_length(types, refusal, mind);
    let measured = match mind {
        Mind(Some(Length16)) => length % (1 << 16),
        Mind(Some(Length32)) => length % (1 << 32),
        Mind(Some(Length64)) => length % (1 << 64),
        _ => length,
    };
    let room = if mind.slips(MessageTooShort) { room + 1 } else { room };
    let fits = measured < room as u128 || (measured == room as u128 && !mind.slips(MessageExactDropped));
    if fits {
        return message(types, refusal, measured as usize, mind);
    }
    if mind.slips(MessageCut) {
        return message(types, refusal, room, mind);
    }
    Vec::new()
}

/// A code's text with a gap for each piece.
fn text_of(refusal: &Refusal, mind: Mind) -> String {
    let prefix = if refusal.code == 28 && mind.slips(TargetPrefixed) { "TypeError: " } else { "" };
    format!("{}{}", prefix, template(refusal.code))
}

fn name_text(text: &[u8], mind: Mind) -> Vec<u8> {
    if mind.slips(NamesEscaped) {
        let quoted = format!("{:?}", String::from_utf8_lossy(text));
        return quoted.as_bytes()[1..quoted.len() - 1].to_vec();
    }
    text.to_vec()
}

/// The length of a message, saturating: it may be far above any buffer's.
fn message_length(types: &Types, refusal: &Refusal, mind: Mind) -> u128 {
    let fixed = text_of(refusal, mind).bytes().filter(|b| *b != b'_').count() as u128;
    refusal.pieces.iter().fold(fixed, |sum, piece| {
        sum.saturating_add(match piece {
            Piece::Type(t) => types.length(*t),
            Piece::Text(text) => name_text(text, mind).len() as u128,
            Piece::Number(n) => n.to_string().len() as u128,
        })
    })
}

/// A message, or its first `room` bytes.
fn message(types: &Types, refusal: &Refusal, room: usize, mind: Mind) -> Vec<u8> {
    let mut out = Vec::new();
    let mut pieces = refusal.pieces.iter();
    for byte in text_of(refusal, mind).bytes() {
        if byte != b'_' {
            out.push(byte);
            continue;
        }
        match pieces.next().expect("a piece for each gap") {
            Piece::Type(t) => types.text(*t, &mut out, room),
            Piece::Text(text) => out.extend(name_text(text, mind)),
            Piece::Number(n) => out.extend_from_slice(n.to_string().as_bytes()),
        }
    }
    out.truncate(room);
    out
}

pub fn ninth_frame(image: &Image, node: usize, mind: Mind) -> Answer {
    let (span_start, span_end) = if mind.slips(NinthSpan) { image.nodes[node].span } else { (0, 0) };
    Answer { span_start, span_end, ..Answer::bare(9, node as u32) }
}

pub fn accepted(walk: &Walk, rooms: Rooms, mind: Mind) -> Answer {
    let sheet = sheet(walk, bound::listed(walk, mind), mind);
    let measured = if mind.slips(RoomForFrame) { frame_sheet_length(walk) } else { sheet.len() };
    if measured > rooms.sheet || (measured == rooms.sheet && mind.slips(SheetExactRefused)) {
        return Answer::bare(10, 0);
    }
    Answer { sheet, ..Answer::bare(0, 0) }
}

/// How long the sheet would be that lists the module frame alone, a mistake.
fn frame_sheet_length(walk: &Walk) -> usize {
    sheet(walk, bound::listed(walk, Mind(Some(FrameOnly))), Mind::SOUND).len()
}

// ---- the sheet

/// The numbers that a sheet gives to structured types: in the order in which its walk completes them.
struct Numbers<'a> {
    types: &'a Types,
    /// For each structured type of the table its number in the sheet, or none yet.
    given: Vec<Option<u32>>,
    /// How many have one.
    count: u32,
    records: Vec<(Ty, Vec<u32>)>,
    mind: Mind,
}

impl Numbers<'_> {
    fn complete(&mut self, t: Ty) {
        // A type that has its number is not walked again: shared tuples would take 2^n steps.
        if t < LIST || self.given[(t - LIST) as usize].is_some() {
            return;
        }
        if self.mind.slips(WholeBeforeParts) {
            self.give(t);
        }
        let mut parts = self.types.parts(t).to_vec();
        if self.mind.slips(PartsRightToLeft) {
            parts.reverse();
        }
        for part in parts {
            self.complete(part);
        }
        if !self.mind.slips(WholeBeforeParts) {
            self.give(t);
        }
    }

    fn give(&mut self, t: Ty) {
        self.given[(t - LIST) as usize] = Some(LIST + self.count);
        self.count += 1;
    }

    fn number(&self, t: Ty) -> u32 {
        if t < LIST {
            let renamed = match self.mind {
                Mind(Some(NumbersOfT)) => [5, 0, 1, 2, 3, 4, 6, 7],
                Mind(Some(NumbersOfLiterals)) => [0, 2, 1, 3, 4, 5, 6, 7],
                _ => [0, 1, 2, 3, 4, 5, 6, 7],
            };
            return renamed[t as usize];
        }
        self.given[(t - LIST) as usize].expect("the walk of the names has reached it")
    }

    /// Records of all types that have a number and no record yet, in the order of their numbers.
    fn record(&mut self) {
        let mut fresh: Vec<(u32, Ty)> = Vec::new();
        for (i, number) in self.given.iter().enumerate() {
            if let Some(number) = number {
                if *number - LIST >= self.records.len() as u32 {
                    fresh.push((*number, LIST + i as u32));
                }
            }
        }
        fresh.sort_unstable();
        for (_, t) in fresh {
            let parts = self.types.parts(t).iter().map(|part| self.number(*part)).collect();
            self.records.push((t, parts));
        }
    }

    /// Renumbers what has been reached as the table has it.
    fn as_formed(&mut self) {
        self.count = 0;
        for i in 0..self.given.len() {
            if self.given[i].is_some() {
                self.give(LIST + i as u32);
            }
        }
    }
}

/// The sheet of the names that are listed.
pub fn sheet(walk: &Walk, listed: Vec<(usize, Ty)>, mind: Mind) -> Vec<u8> {
    let types = &walk.types;
    let names: Vec<(usize, Ty)> =
        listed.into_iter().filter(|(_, t)| *t != UNKNOWN || !mind.slips(UnknownLeftOut)).collect();

    let formed = types.formed() as usize;
    let mut numbers = Numbers { types, given: vec![None; formed], count: 0, records: Vec::new(), mind };
    let mut name_types: Vec<u32> = Vec::new();
    for (_, t) in &names {
        if mind.slips(TypesPerName) {
            numbers.given = vec![None; formed];
        }
        numbers.complete(*t);
        if mind.slips(TypesPerName) {
            numbers.record();
            name_types.push(numbers.number(*t));
        }
    }
    if mind.slips(TypesAsFormed) {
        numbers.as_formed();
    }
    if mind.slips(UnreachableKept) {
        (0..types.formed()).for_each(|i| numbers.complete(LIST + i));
    }
    if !mind.slips(TypesPerName) {
        numbers.record();
        name_types = names.iter().map(|(_, t)| numbers.number(*t)).collect();
    }

    let mut records: Vec<u32> = Vec::new();
    let mut elements: Vec<u32> = Vec::new();
    for (t, parts) in &numbers.records {
        match types.kind(*t) {
            TUPLE => {
                let shared = elements.windows(parts.len().max(1)).position(|window| window == &parts[..]);
                let p = match shared {
                    Some(at) if mind.slips(ElementsShared) => at,
                    _ if parts.is_empty() && mind.slips(EmptyTupleAtZero) => 0,
                    _ => {
                        elements.extend_from_slice(parts);
                        elements.len() - parts.len()
                    }
                };
                records.extend_from_slice(&[TUPLE, p as u32, parts.len() as u32]);
            }
            DICT => records.extend_from_slice(&[DICT, parts[0], parts[1]]),
            kind => records.extend_from_slice(&[kind, parts[0], 0]),
        }
    }

    let names_at = 40 + 4 * records.len() + 4 * elements.len();
    let texts_at = names_at + 12 * names.len();
    let mut name_records: Vec<u32> = Vec::new();
    let mut texts: Vec<u8> = Vec::new();
    if mind.slips(AllTexts) {
        texts = walk.image.texts.concat();
    }
    for ((name, _), t) in names.iter().zip(&name_types) {
        let text = &walk.image.texts[*name];
        let mut start = texts.len();
        if mind.slips(AllTexts) {
            start = walk.image.texts[..*name].concat().len();
        } else {
            texts.extend_from_slice(text);
        }
        if mind.slips(TextStartInSheet) {
            start += texts_at;
        }
        name_records.extend_from_slice(&[start as u32, text.len() as u32, *t]);
    }

    let areas = [4 * records.len(), 4 * elements.len(), 4 * name_records.len(), texts.len()];
    let counts = [records.len() / 3, elements.len(), names.len(), texts.len()];
    let mut words: Vec<u32> = vec![1];
    let mut at = 40;
    for (count, area) in counts.iter().zip(areas.iter()) {
        words.extend_from_slice(&[*count as u32, at as u32]);
        at += area;
    }
    words.push(at as u32);
    words.extend(records);
    words.extend(elements);
    words.extend(name_records);
    let mut bytes: Vec<u8> = words.iter().flat_map(|word| word.to_le_bytes()).collect();
    bytes.extend(texts);
    bytes
}
