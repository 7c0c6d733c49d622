//! Comparing any program that speaks the batch form with T.

use crate::answer::{has_second, Rooms, Setting};
use crate::batch;
use crate::convert;
use crate::judge::{self, Engine};
use crate::reader;
use crate::sheets;
use crate::show;
use crate::shrink;
use std::io::{Read, Write};
use std::process::{Command, Stdio};

/// The other program, and how it is to be asked.
pub struct Other {
    pub program: String,
    pub args: Vec<String>,
    /// Run once for each image, with the image itself on standard input, as document 01's `typecheck` is.
    pub single: bool,
    /// Its lines have neither a checksum of the sheet nor a second span.
    pub no_checksum: bool,
    /// The setting in which it answers.
    pub setting: Setting,
    /// It is given each image converted, and must answer as T did to the image with its TreeSets. One that is refused with 1
    /// to 8 has no converted image and is given as it is.
    pub converted: bool,
}

/// What stands for the line of an image on which the program ended without one.
const NO_LINE: &[u8] = b"(no line)";

/// Larger forms are not printed in hexadecimal; `--save` keeps them.
const HEX_BYTES: usize = 600;

pub struct Comparison {
    /// The smallest forms of the differences that were shown.
    pub smallest: Vec<Vec<u8>>,
    pub images: usize,
    pub differences: usize,
    /// Images that document 01's rules alone decide, by the reference walk.
    pub too_large: usize,
}

impl Other {
    /// Its line for each image. An image on which it ends without a line gets NO_LINE, and it is started
    /// again with the next.
    fn lines(&self, images: &[Vec<u8>]) -> Result<Vec<Vec<u8>>, String> {
        let mut lines: Vec<Vec<u8>> = Vec::new();
        while lines.len() < images.len() {
            let rest = &images[lines.len()..];
            let asked = if self.single { &rest[..1] } else { rest };
            let mut found = self.run(asked)?;
            found.truncate(asked.len());
            if found.len() < asked.len() {
                found.push(NO_LINE.to_vec());
            }
            lines.extend(found);
        }
        Ok(lines)
    }

    fn run(&self, images: &[Vec<u8>]) -> Result<Vec<Vec<u8>>, String> {
        let mut input: Vec<u8> = Vec::new();
        for image in images {
            let converted = if self.converted { convert::converted(image) } else { None };
            let given = converted.as_ref().unwrap_or(image);
            if self.single {
                input.extend_from_slice(given);
            } else {
                batch::write(&mut input, given).map_err(|e| e.to_string())?;
            }
        }
        let mut child = Command::new(&self.program)
            .args(&self.args)
            .stdin(Stdio::piped())
            .stdout(Stdio::piped())
            .stderr(Stdio::null())
            .spawn()
            .map_err(|e| format!("{}: {}", self.program, e))?;
        let mut stdin = child.stdin.take().expect("it was piped");
        // It may write before it has read all. If it ends early the pipe breaks, and its lines tell.
        let writer = std::thread::spawn(move || {
            let _ = stdin.write_all(&input);
        });
        let mut output = Vec::new();
        let read = child.stdout.take().expect("it was piped").read_to_end(&mut output);
        read.map_err(|e| format!("{}: {}", self.program, e))?;
        writer.join().map_err(|_| "the writer ended badly".to_string())?;
        child.wait().map_err(|e| format!("{}: {}", self.program, e))?;
        // Only whole lines count.
        let mut lines: Vec<Vec<u8>> = output.split(|b| *b == b'\n').map(|line| line.to_vec()).collect();
        lines.pop();
        Ok(lines)
    }

    /// T's line for an image, in the form in which this program gives its own.
    fn wanted(&self, image: &[u8], rooms: Rooms) -> (Vec<u8>, Engine) {
        let asked = if self.converted { judge::former } else { judge::judge };
        let judged = asked(image, self.setting, rooms);
        let bare = self.single || self.no_checksum;
        let line = if bare { judged.answer.bare_line() } else { judged.answer.line() };
        (line, judged.engine)
    }
}

/// Compares all images, and prints the first `show` differences, each with a smallest form.
pub fn compare(other: &Other, images: &[Vec<u8>], rooms: Rooms, show: usize) -> Result<Comparison, String> {
    let theirs = other.lines(images)?;
    let mut result = Comparison { smallest: Vec::new(), images: images.len(), differences: 0, too_large: 0 };
    for (number, (image, line)) in images.iter().zip(&theirs).enumerate() {
        let (wanted, engine) = other.wanted(image, rooms);
        if engine == Engine::TooLarge {
            result.too_large += 1;
        }
        if wanted == *line {
            continue;
        }
        result.differences += 1;
        if result.differences > show {
            continue;
        }
        println!("image {} ({} bytes), judged by T {}:", number, image.len(), engine.name());
        print_pair(&wanted, line);
        let kind = difference(&wanted, line);
        // A smaller form must show the same difference, not any.
        let differs = |forms: &[Vec<u8>]| -> Result<Vec<bool>, String> {
            let lines = other.lines(forms)?;
            let stays = |(form, line): (&Vec<u8>, &Vec<u8>)| {
                let wanted = other.wanted(form, rooms).0;
                wanted != *line && difference(&wanted, line) == kind
            };
            Ok(forms.iter().zip(&lines).map(stays).collect())
        };
        let smallest = shrink::shrink(image, differs)?;
        let (wanted, engine) = other.wanted(&smallest, rooms);
        let line = &other.lines(std::slice::from_ref(&smallest))?[0];
        println!("  smallest form ({} bytes), judged by T {}:", smallest.len(), engine.name());
        print_pair(&wanted, line);
        for text in show::image(&smallest).lines() {
            println!("    | {}", text);
        }
        if smallest.len() <= HEX_BYTES {
            println!("    bytes {}", crate::answer::hex(&smallest));
        }
        result.smallest.push(smallest);
    }
    Ok(result)
}

/// The sheets on which the program's line is not the reader's.
pub struct Differing {
    pub compared: usize,
    pub sheets: Vec<Vec<u8>>,
}

/// Compares a program that reads sheets with the reader, and prints the first `show` differences. Nothing is made
/// smaller: the generated sheets are small, and the rule that is broken is told.
pub fn compare_sheets(other: &Other, sheets: &[Vec<u8>], show: usize) -> Result<Differing, String> {
    let theirs = other.lines(sheets)?;
    let mut differing = Differing { compared: sheets.len(), sheets: Vec::new() };
    for (number, (sheet, line)) in sheets.iter().zip(&theirs).enumerate() {
        let mut wanted = sheets::line(sheet, None);
        if other.no_checksum {
            if let Some(end) = wanted.iter().position(|byte| *byte == b'#') {
                wanted.truncate(end - 1);
            }
        }
        if wanted == *line {
            continue;
        }
        differing.sheets.push(sheet.clone());
        if differing.sheets.len() > show {
            continue;
        }
        let rule = reader::examine(sheet, None).err();
        let broken = reader::RULES.iter().find(|(known, _, _, _)| Some(*known) == rule);
        let why = broken.map_or("good".to_string(), |(_, name, _, what)| format!("breaks {} ({})", name, what));
        println!("sheet {} ({} bytes), {}:", number, sheet.len(), why);
        println!("    reader  {}", String::from_utf8_lossy(&wanted));
        println!("    program {}", String::from_utf8_lossy(line));
        if sheet.len() <= HEX_BYTES {
            println!("    bytes {}", crate::answer::hex(sheet));
        }
    }
    Ok(differing)
}

fn print_pair(wanted: &[u8], line: &[u8]) {
    println!("    T       {}", String::from_utf8_lossy(wanted));
    println!("    program {}", String::from_utf8_lossy(line));
}

/// What kind of difference two lines show: their codes, and whether the second span alone differs.
fn difference(wanted: &[u8], line: &[u8]) -> (Option<u32>, Option<u32>, bool) {
    (code(wanted), code(line), without_second(wanted) == without_second(line))
}

/// A line up to its second span. The messages of the codes that have one hold no ` @`.
fn without_second(line: &[u8]) -> &[u8] {
    let end = line.windows(2).rposition(|pair| pair == b" @").filter(|_| code(line).map_or(false, has_second));
    &line[..end.unwrap_or(line.len())]
}

/// The code that a line tells: 0 for accepted, none for no line of the form.
fn code(line: &[u8]) -> Option<u32> {
    let text = String::from_utf8_lossy(line);
    let mut words = text.split(' ');
    match words.next() {
        Some("accepted") => Some(0),
        Some("refused") => words.next().and_then(|word| word.parse().ok()),
        _ => None,
    }
}
