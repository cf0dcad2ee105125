//! Frames, as `batch` reads them: a line with the decimal number of bytes, and then those bytes.

use std::io::{BufRead, Result, Write};

pub fn write(to: &mut impl Write, bytes: &[u8]) -> Result<()> {
    writeln!(to, "{}", bytes.len())?;
    to.write_all(bytes)
}

/// The next frame, or nothing where the input has ended.
pub fn read(from: &mut impl BufRead) -> Result<Option<Vec<u8>>> {
    let mut size = String::new();
    if from.read_line(&mut size)? == 0 {
        return Ok(None);
    }
    let size: usize = size.trim_end().parse().map_err(std::io::Error::other)?;
    let mut bytes = vec![0; size];
    from.read_exact(&mut bytes)?;
    Ok(Some(bytes))
}

pub fn read_all(from: &mut impl BufRead) -> Result<Vec<Vec<u8>>> {
    let mut frames = Vec::new();
    while let Some(frame) = read(from)? {
        frames.push(frame);
    }
    Ok(frames)
}
