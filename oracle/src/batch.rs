//! The batch form: images one after the other, each behind its length as a u32, little-endian.

use std::io::{self, Read, Write};

/// No image is anywhere near this: a longer length means that the input is no batch.
const LONGEST: usize = 1 << 24;

/// All images of a batch.
pub fn read(input: &mut dyn Read) -> io::Result<Vec<Vec<u8>>> {
    let mut bytes = Vec::new();
    input.read_to_end(&mut bytes)?;
    let mut images = Vec::new();
    let mut rest: &[u8] = &bytes;
    while !rest.is_empty() {
        if rest.len() < 4 {
            return Err(broken("it ends inside a length"));
        }
        let length = u32::from_le_bytes([rest[0], rest[1], rest[2], rest[3]]) as usize;
        if length > LONGEST || rest.len() - 4 < length {
            return Err(broken("it ends inside an image"));
        }
        images.push(rest[4..4 + length].to_vec());
        rest = &rest[4 + length..];
    }
    Ok(images)
}

pub fn write(output: &mut dyn Write, image: &[u8]) -> io::Result<()> {
    output.write_all(&(image.len() as u32).to_le_bytes())?;
    output.write_all(image)
}

fn broken(why: &str) -> io::Error {
    io::Error::new(io::ErrorKind::InvalidData, format!("not a batch of images: {}", why))
}
