//! What comes back for an image, and the lines that say it.

/// The rooms of document 01's program `typecheck`.
pub const SHEET_ROOM: usize = 42_532;
pub const MESSAGE_ROOM: usize = 1_024;

/// Document 02's settings: plain drops the typing errors of If and While bodies, as T does, and strict returns them.
#[derive(Debug, Clone, Copy, PartialEq, Eq)]
pub enum Setting {
    Plain,
    Strict,
}

/// How many bytes the caller's two buffers have.
#[derive(Debug, Clone, Copy, PartialEq, Eq)]
pub struct Rooms {
    pub sheet: usize,
    pub message: usize,
}

impl Default for Rooms {
    fn default() -> Self {
        Rooms { sheet: SHEET_ROOM, message: MESSAGE_ROOM }
    }
}

#[derive(Debug, Clone, PartialEq, Eq)]
pub struct Answer {
    pub code: u32,
    pub place: u32,
    pub span_start: u32,
    pub span_end: u32,
    /// Document 02's second span, start and end: that of the node that first made the old type known. 0,0 for all
    /// codes but 25 and 23.
    pub second: (u32, u32),
    /// What is written at the front of the sheet buffer.
    pub sheet: Vec<u8>,
    /// What is written at the front of the message buffer.
    pub message: Vec<u8>,
}

/// The codes that answer with a second span.
pub fn has_second(code: u32) -> bool {
    code == 25 || code == 23
}

impl Answer {
    /// A refusal outside 20..50.
    pub fn bare(code: u32, place: u32) -> Answer {
        Answer { code, place, span_start: 0, span_end: 0, second: (0, 0), sheet: Vec::new(), message: Vec::new() }
    }

    /// The line of document 01's program, and what it does not tell: for an accepted program ` #` and a checksum of
    /// its sheet, since two sheets may be of equal size; for 25 and 23 ` @` and the second span, also where it is
    /// 0,0. One that another code must not have would be seen too.
    pub fn line(&self) -> Vec<u8> {
        let mut line = self.bare_line();
        if self.code == 0 {
            line.extend_from_slice(format!(" #{:016x}", fnv1a(&self.sheet)).as_bytes());
        } else if has_second(self.code) || self.second != (0, 0) {
            line.extend_from_slice(format!(" @{},{}", self.second.0, self.second.1).as_bytes());
        }
        line
    }

    /// The line of document 01's program, without its newline.
    pub fn bare_line(&self) -> Vec<u8> {
        if self.code == 0 {
            let word = |at: usize| {
                let s = &self.sheet;
                u32::from_le_bytes([s[at], s[at + 1], s[at + 2], s[at + 3]])
            };
            return format!("accepted {} {} {}", word(20), word(4), self.sheet.len()).into_bytes();
        }
        let head = format!("refused {} {} {} {} ", self.code, self.place, self.span_start, self.span_end);
        let mut line = head.into_bytes();
        if self.message.is_empty() {
            line.push(b'-');
        } else {
            line.extend_from_slice(&self.message);
        }
        line
    }

    /// The machine form: tab-separated, the buffers in hexadecimal; the second span stands last.
    pub fn full_line(&self, engine: &str) -> Vec<u8> {
        format!(
            "{}\t{}\t{}\t{}\t{}\t{}\t{}\t{}\t{}",
            self.code,
            self.place,
            self.span_start,
            self.span_end,
            hex(&self.sheet),
            hex(&self.message),
            engine,
            self.second.0,
            self.second.1
        )
        .into_bytes()
    }
}

/// FNV-1a, 64 bits.
pub fn fnv1a(bytes: &[u8]) -> u64 {
    bytes.iter().fold(0xcbf2_9ce4_8422_2325, |hash, byte| (hash ^ u64::from(*byte)).wrapping_mul(0x0000_0100_0000_01b3))
}

/// Bytes in hexadecimal, `-` for none.
pub fn hex(bytes: &[u8]) -> String {
    if bytes.is_empty() {
        return "-".to_string();
    }
    bytes.iter().map(|byte| format!("{:02x}", byte)).collect()
}
