//! The oracle: T itself, unchanged, as the judge of program images. See README.md.

mod answer;
mod batch;
mod bound;
mod builtins;
mod check;
mod compare;
mod convert;
mod exhaust;
mod generate;
mod image;
mod judge;
mod mistakes;
mod parser;
mod program;
mod random;
mod reader;
mod reference;
mod semantic;
mod sheet;
mod sheets;
mod show;
mod shrink;
mod source;
mod store;
mod tree;
mod types;
mod vm;

use answer::{Rooms, Setting};
use judge::Engine;
use mistakes::Mind;
use std::io::{self, BufWriter, Read, Write};
use std::path::Path;

const USAGE: &str = "\
usage:
  oracle judge [ROOMS] [FORM] [--rules] < batch            T's answers, a line for each image
  oracle reference [ROOMS] [FORM] < batch                  document 01's answers by the reference walk
  oracle mistaken NAME [ROOMS] [FORM] < batch              the same with one mistake switched on
  oracle generate --seed S --family F --count N > batch    images of a family (oracle families)
  oracle encode < source > batch                           programs written as text, parted by lines ---
  oracle show [--source] < batch                           images as text (--source: as encode reads it)
  oracle check-reference --seed S --count N [--family F]   T against the reference, N images of each family
  oracle exhaust --nodes K                                 T against the reference, all programs of up to K nodes
  oracle convert < batch > batch                           each image with Sets for its TreeSets
  oracle compare [ROOMS] [--show K] [--save FILE] [--single] [--no-checksum] [--converted] PROGRAM [ARGS..] < batch
  oracle store --seed S --out FOLDER                       write the stored list
  oracle mistakes [--tight FILE] < batch                   which images tell each mistake from the truth
  oracle hash-order [--runs N] < batch                     the different answers of T as is, run again and again
  oracle families                                          the generator's families
  oracle sheets --seed S --count N > batch                 sheets, good and damaged (oracle sheet-kinds)
  oracle read [--without RULE] < batch                     the reader's line for each sheet (oracle sheet-rules)
  oracle compare --sheets [--show K] [--save FILE] [--single] [--no-checksum] PROGRAM [ARGS..] < batch
  oracle check-sheets --seed S --count N [--without RULE]  the reader against a second opinion
  oracle exhaust-sheets                                    the same on every sheet of few words
  oracle store-sheets --seed S --out FOLDER                write the stored list of sheets
  oracle sheet-kinds, oracle sheet-rules                   the kinds of sheets; the reader's rules
ROOMS: --sheet-room N --message-room N
FORM: --full for the machine form, or --no-checksum for document 01's line alone
With --strict, judge, reference, mistaken, check-reference, exhaust and compare go by document 02's strict setting.
With --former, judge and reference answer as before TreeSets were retired. With --converted, PROGRAM gets each image
converted, and is held to T's former answer to the image as it was.
";

/// Types may be some 2,000 levels deep, and T goes through them by recursion.
const STACK: usize = 256 << 20;

fn main() {
    let walker = std::thread::Builder::new().stack_size(STACK).spawn(command);
    let ended = walker.expect("a thread can be started").join();
    match ended {
        Ok(Ok(status)) => std::process::exit(status),
        Ok(Err(why)) => {
            eprintln!("oracle: {}", why);
            std::process::exit(2);
        }
        Err(_) => std::process::exit(101),
    }
}

fn command() -> Result<i32, String> {
    let args: Vec<String> = std::env::args().skip(1).collect();
    let (name, rest) = match args.split_first() {
        Some((name, rest)) => (name.as_str(), rest),
        None => return Err(USAGE.to_string()),
    };
    match name {
        "judge" => judge_batch(Options::new(rest)?),
        "reference" => reference_batch(Options::new(rest)?, Mind::SOUND),
        "mistaken" => {
            let (name, rest) = rest.split_first().ok_or("mistaken wants the name of a mistake")?;
            let mistake = mistakes::find(name).ok_or_else(|| format!("no mistake {}", name))?;
            let options = Options::new(rest)?;
            if options.flag("--former") {
                return Err("a mistake has no former answer".to_string());
            }
            reference_batch(options, Mind(Some(mistake)))
        }
        "generate" => generate_batch(Options::new(rest)?),
        "encode" => encode(),
        "show" => {
            let source = Options::new(rest)?.flag("--source");
            for (number, image) in images()?.iter().enumerate() {
                if source {
                    print!("{}{}", if number > 0 { "---\n" } else { "" }, show::image(image));
                } else {
                    println!("image {}:\n{}", number, show::image(image));
                }
            }
            Ok(0)
        }
        "check-reference" => {
            let options = Options::new(rest)?;
            let (seed, count) = (options.wanted("--seed")?, options.wanted("--count")?);
            Ok(i32::from(!check::check_reference(seed, count, options.family()?, options.setting())))
        }
        "exhaust" => {
            let options = Options::new(rest)?;
            let nodes = options.wanted("--nodes")? as usize;
            Ok(i32::from(!check::exhaust(nodes, options.setting())))
        }
        "convert" => convert_batch(),
        "compare" => compare_batch(rest),
        "store" => {
            let options = Options::new(rest)?;
            let folder = options.text("--out").ok_or("--out is missing")?;
            print!("{}", store::write(options.wanted("--seed")?, Path::new(folder))?);
            Ok(0)
        }
        "mistakes" => mistake_suite(Options::new(rest)?),
        "hash-order" => {
            let runs = Options::new(rest)?.number("--runs")?.unwrap_or(200);
            for (number, image) in images()?.iter().enumerate() {
                println!("image {}:", number);
                for (line, count) in judge::as_is_again(image, runs) {
                    println!("  {:>5} of {}: {}", count, runs, line);
                }
            }
            Ok(0)
        }
        "families" => {
            for (name, what) in generate::FAMILIES.iter() {
                println!("{:10} {}", name, what);
            }
            Ok(0)
        }
        "sheets" => {
            let options = Options::new(rest)?;
            let (seed, count) = (options.wanted("--seed")?, options.wanted("--count")?);
            write_batch((0..count).map(|number| sheets::made(seed, number).bytes))
        }
        "read" => {
            let without = Options::new(rest)?.rule_left_out()?;
            each_line(|sheet| sheets::line(sheet, without))
        }
        "check-sheets" => {
            let options = Options::new(rest)?;
            let (seed, count) = (options.wanted("--seed")?, options.wanted("--count")?);
            Ok(i32::from(!sheets::check(seed, count, options.rule_left_out()?)))
        }
        "exhaust-sheets" => Ok(i32::from(!sheets::exhaust())),
        "store-sheets" => {
            let options = Options::new(rest)?;
            let folder = options.text("--out").ok_or("--out is missing")?;
            print!("{}", sheets::write(options.wanted("--seed")?, Path::new(folder))?);
            Ok(0)
        }
        "sheet-kinds" => {
            for (name, fate, what) in sheets::kinds() {
                println!("{:22} {:8} {}", name, format!("{:?}", fate).to_lowercase(), what);
            }
            Ok(0)
        }
        "sheet-rules" => {
            // The first word alone is a name for --without; the others cannot be left out.
            for (_, name, droppable, what) in reader::RULES.iter() {
                println!("{:16} {:6} {}", name, if *droppable { "" } else { "always" }, what);
            }
            Ok(0)
        }
        other => Err(format!("no command {}\n{}", other, USAGE)),
    }
}

/// Options of the form `--name value`, or `--name` alone for the flags.
struct Options {
    given: Vec<(String, String)>,
}

const VALUES: [&str; 12] = [
    "--sheet-room",
    "--message-room",
    "--seed",
    "--count",
    "--family",
    "--nodes",
    "--show",
    "--save",
    "--out",
    "--tight",
    "--runs",
    "--without",
];
const FLAGS: [&str; 9] =
    ["--strict", "--full", "--rules", "--single", "--no-checksum", "--source", "--sheets", "--former", "--converted"];

impl Options {
    fn new(args: &[String]) -> Result<Options, String> {
        let mut given = Vec::new();
        let mut args = args.iter();
        while let Some(name) = args.next() {
            let value = if FLAGS.contains(&name.as_str()) {
                String::new()
            } else if !VALUES.contains(&name.as_str()) {
                return Err(format!("no option {}\n{}", name, USAGE));
            } else {
                args.next().ok_or_else(|| format!("{} wants a value", name))?.clone()
            };
            given.push((name.clone(), value));
        }
        Ok(Options { given })
    }

    fn flag(&self, name: &str) -> bool {
        self.given.iter().any(|(known, _)| known == name)
    }

    fn text(&self, name: &str) -> Option<&str> {
        self.given.iter().find(|(known, _)| known == name).map(|(_, value)| value.as_str())
    }

    fn number(&self, name: &str) -> Result<Option<u64>, String> {
        let parsed =
            self.text(name).map(|value| value.parse::<u64>().map_err(|e| format!("{} {}: {}", name, value, e)));
        parsed.transpose()
    }

    fn wanted(&self, name: &str) -> Result<u64, String> {
        self.number(name)?.ok_or_else(|| format!("{} is missing", name))
    }

    /// A family, which there must be.
    fn family(&self) -> Result<Option<&str>, String> {
        match self.text("--family") {
            Some(name) if !generate::FAMILIES.iter().any(|(known, _)| *known == name) => {
                Err(format!("no family {}: see oracle families", name))
            }
            family => Ok(family),
        }
    }

    /// A rule of the sheet reader that is to be left out.
    fn rule_left_out(&self) -> Result<Option<reader::Rule>, String> {
        let found = |name: &str| {
            let known = reader::RULES.iter().find(|(_, known, droppable, _)| *known == name && *droppable);
            known.map(|(rule, _, _, _)| *rule).ok_or_else(|| format!("no rule {} that could be left out", name))
        };
        self.text("--without").map(found).transpose()
    }

    fn setting(&self) -> Setting {
        if self.flag("--strict") {
            Setting::Strict
        } else {
            Setting::Plain
        }
    }

    fn rooms(&self) -> Result<Rooms, String> {
        let usual = Rooms::default();
        Ok(Rooms {
            sheet: self.number("--sheet-room")?.map_or(usual.sheet, |n| n as usize),
            message: self.number("--message-room")?.map_or(usual.message, |n| n as usize),
        })
    }
}

fn images() -> Result<Vec<Vec<u8>>, String> {
    batch::read(&mut io::stdin().lock()).map_err(|e| e.to_string())
}

/// Writes a line for each image of the batch on standard input.
fn each_line(mut line: impl FnMut(&[u8]) -> Vec<u8>) -> Result<i32, String> {
    let mut out = BufWriter::new(io::stdout());
    for image in images()? {
        out.write_all(&line(&image)).and_then(|()| out.write_all(b"\n")).map_err(|e| e.to_string())?;
    }
    out.flush().map_err(|e| e.to_string())?;
    Ok(0)
}

fn judge_batch(options: Options) -> Result<i32, String> {
    let rooms = options.rooms()?;
    let asked = if options.flag("--former") { judge::former } else { judge::judge };
    each_line(|image| {
        let judged = asked(image, options.setting(), rooms);
        if options.flag("--full") {
            judged.answer.full_line(judged.engine.name())
        } else if judged.engine == Engine::TooLarge && !options.flag("--rules") {
            b"too large for T".to_vec()
        } else {
            line(&judged.answer, &options)
        }
    })
}

/// An answer's line; with `--no-checksum` document 01's alone.
fn line(answer: &answer::Answer, options: &Options) -> Vec<u8> {
    if options.flag("--no-checksum") {
        answer.bare_line()
    } else {
        answer.line()
    }
}

fn reference_batch(options: Options, mind: Mind) -> Result<i32, String> {
    let rooms = options.rooms()?;
    each_line(|image| {
        let judged = if options.flag("--former") {
            reference::former(image, options.setting(), rooms)
        } else {
            reference::judge(image, options.setting(), rooms, mind)
        };
        let answer = judged.answer;
        if options.flag("--full") {
            answer.full_line("reference")
        } else {
            line(&answer, &options)
        }
    })
}

fn compare_batch(args: &[String]) -> Result<i32, String> {
    // Options stand before the program; what stands behind it is the program's.
    let mut at = 0;
    while at < args.len() && args[at].starts_with("--") {
        at += if FLAGS.contains(&args[at].as_str()) { 1 } else { 2 };
    }
    let program = args.get(at).ok_or("compare wants a program")?;
    let options = Options::new(&args[..at])?;
    let other = compare::Other {
        program: program.clone(),
        args: args[at + 1..].to_vec(),
        single: options.flag("--single"),
        no_checksum: options.flag("--no-checksum"),
        setting: options.setting(),
        converted: options.flag("--converted"),
    };
    let show = options.number("--show")?.unwrap_or(3) as usize;
    if options.flag("--sheets") {
        if options.text("--sheet-room").is_some()
            || options.text("--message-room").is_some()
            || options.flag("--strict")
            || options.flag("--converted")
        {
            return Err("a reader has no rooms, no setting and nothing to convert".to_string());
        }
        let differing = compare::compare_sheets(&other, &images()?, show)?;
        if let Some(file) = options.text("--save") {
            let mut out = std::fs::File::create(file).map_err(|e| format!("{}: {}", file, e))?;
            for sheet in &differing.sheets {
                batch::write(&mut out, sheet).map_err(|e| format!("{}: {}", file, e))?;
            }
        }
        println!("{} sheets, {} differ", differing.compared, differing.sheets.len());
        return Ok(i32::from(!differing.sheets.is_empty()));
    }
    let result = compare::compare(&other, &images()?, options.rooms()?, show)?;
    if let Some(file) = options.text("--save") {
        let mut out = std::fs::File::create(file).map_err(|e| format!("{}: {}", file, e))?;
        for image in &result.smallest {
            batch::write(&mut out, image).map_err(|e| format!("{}: {}", file, e))?;
        }
    }
    println!(
        "{} images, {} differ; {} were too large for T and judged by document 01's rules alone",
        result.images, result.differences, result.too_large
    );
    Ok(i32::from(result.differences > 0))
}

/// The images with Sets for their TreeSets. One that is refused with 1 to 8 has no such image: it is copied as it is, so that
/// the images of both batches have the same numbers.
fn convert_batch() -> Result<i32, String> {
    let images = images()?;
    let converted: Vec<Option<Vec<u8>>> = images.iter().map(|image| convert::converted(image)).collect();
    let refused = converted.iter().filter(|image| image.is_none()).count();
    eprintln!("{} images, {} of them refused with 1 to 8 and copied as they are", images.len(), refused);
    write_batch(converted.into_iter().zip(images).map(|(converted, image)| converted.unwrap_or(image)))
}

/// The images given, in the usual rooms, plain and strict; and a small second list in tight rooms, without which no
/// image could tell a sheet of exactly the room: the stored one's file, or the same as the generator makes it.
fn mistake_suite(options: Options) -> Result<i32, String> {
    let images = images()?;
    let usual = mistakes::suite(&images, Setting::Plain, Rooms::default())?;
    let strict = mistakes::suite(&images, Setting::Strict, Rooms::default())?;
    let tight_images = match options.text("--tight") {
        Some(file) => {
            let mut input = std::fs::File::open(file).map_err(|e| format!("{}: {}", file, e))?;
            batch::read(&mut input).map_err(|e| format!("{}: {}", file, e))?
        }
        None => store::tight_list().into_iter().map(|(_, image)| image).collect(),
    };
    let tight = mistakes::suite(&tight_images, Setting::Plain, store::TIGHT)?;
    let mut survivors = 0;
    for (at, (_, name, what)) in mistakes::ALL.iter().enumerate() {
        let line = match (usual[at].first, strict[at].first, tight[at].first) {
            (Some(first), _, _) => format!("{:>5} images, the first {:>4}", usual[at].count, first),
            (None, Some(first), _) => format!("{:>5} strict images, the first {}", strict[at].count, first),
            (None, None, Some(first)) => format!("{:>5} tight images, the first {}", tight[at].count, first),
            (None, None, None) => {
                survivors += 1;
                "  SURVIVES".to_string()
            }
        };
        println!("{:28} {:34} {}", name, line, what);
    }
    println!("{} mistakes, {} survive", mistakes::ALL.len(), survivors);
    Ok(i32::from(survivors > 0))
}

fn generate_batch(options: Options) -> Result<i32, String> {
    let seed = options.wanted("--seed")?;
    let count = options.wanted("--count")?;
    let family = options.family()?.ok_or("--family is missing")?;
    write_batch((0..count).map(|number| generate::image(seed, family, number)))
}

fn write_batch(images: impl Iterator<Item = Vec<u8>>) -> Result<i32, String> {
    let mut out = BufWriter::new(io::stdout());
    for image in images {
        batch::write(&mut out, &image).map_err(|e| e.to_string())?;
    }
    out.flush().map_err(|e| e.to_string())?;
    Ok(0)
}

/// Programs written down as text (source.rs), parted by lines `---`, as a batch.
fn encode() -> Result<i32, String> {
    let mut text = String::new();
    io::stdin().read_to_string(&mut text).map_err(|e| e.to_string())?;
    let mut out = BufWriter::new(io::stdout());
    for part in text.split("---\n") {
        let program = source::parse(part).map_err(|e| format!("{}\nin:\n{}", e, part))?;
        batch::write(&mut out, &program.image()).map_err(|e| e.to_string())?;
    }
    out.flush().map_err(|e| e.to_string())?;
    Ok(0)
}
