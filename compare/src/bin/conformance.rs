//! conformance: the existing Rust as a reader of the conformance images.
//!
//!     conformance           an image on standard input, its listing on standard output; status 3 where the Rust cannot
//!                           be asked
//!     conformance FOLDER    every image of the folder that the Rust can be asked, against the listing beside it;
//!                           status 1 if one differs
//!
//! The Rust takes a region of at least one byte whose length is a multiple of the read unit, and a read unit up to the
//! program unit. First lines and settings that are refused are no matter of its own.

use compare::bytes::ALIGNS;
use compare::model::{Answer, CLEAN, Case, DAMAGED, Outcome, RecoveryStep, Side, UNSEALED, Units};
use compare::theirs::Theirs;
use std::error::Error;
use std::io::{self, Read, Write};
use std::path::Path;
use std::process::ExitCode;
use std::{env, fs};

const LONGEST: usize = 32_768;

fn main() -> Result<ExitCode, Box<dyn Error>> {
    if let Some(folder) = env::args().nth(1) {
        return compare_all(Path::new(&folder));
    }
    let mut image = Vec::new();
    io::stdin().read_to_end(&mut image)?;
    match listing(&image) {
        Some(lines) => io::stdout().write_all(lines.as_bytes())?,
        None => return Ok(ExitCode::from(3)),
    }
    Ok(ExitCode::SUCCESS)
}

fn compare_all(folder: &Path) -> Result<ExitCode, Box<dyn Error>> {
    let mut images = Vec::new();
    for entry in fs::read_dir(folder).map_err(|error| format!("{}: {error}", folder.display()))? {
        images.push(entry?.path());
    }
    images.retain(|path| path.extension().is_some_and(|end| end == "img"));
    images.sort();
    let (mut agree, mut differ, mut not_asked) = (0, 0, 0);
    for path in &images {
        let expected = fs::read_to_string(path.with_extension("txt"))?;
        match listing(&fs::read(path)?) {
            None => not_asked += 1,
            Some(lines) if lines == expected => agree += 1,
            Some(lines) => {
                differ += 1;
                println!("{} differs\n expected:\n{expected} the Rust:\n{lines}", path.display());
            }
        }
    }
    println!("{} compared: {agree} agree, {differ} differ; {not_asked} that the Rust cannot be asked", agree + differ);
    Ok(ExitCode::from(u8::from(differ > 0 || agree == 0)))
}

/// The listing as the Rust's recovery gives it; none where the Rust cannot be asked.
fn listing(image: &[u8]) -> Option<String> {
    let end = image.iter().position(|byte| *byte == b'\n')?;
    let (program, read) = std::str::from_utf8(&image[..end]).ok()?.split_once(',')?;
    let units = Units { program: unit(program)?, read: unit(read)? };
    let region = &image[end + 1..];
    if !ALIGNS.contains(&units.program) || region.len() > LONGEST {
        return None;
    }
    let case = Case::Recovery { units, held: region.len(), page_len: LONGEST, region: region.to_vec() };
    match Theirs.answer(&case) {
        Answer::Recovery(steps) => Some(lines(&steps)),
        _ => None,
    }
}

/// A unit without a zero in front or a sign.
fn unit(text: &str) -> Option<u16> {
    let number: u16 = text.parse().ok()?;
    (number.to_string() == text).then_some(number)
}

fn lines(steps: &[RecoveryStep]) -> String {
    let (mut lines, mut records, mut bytes) = (String::new(), 0, 0);
    for step in steps {
        let refusal = match step.outcome {
            Outcome::Found(found) => {
                let (kind, seq) = (found.record.kind, found.record.seq);
                lines.push_str(&format!("{},{kind},{seq},{}\n", found.offset, found.payload.len));
                records += 1;
                bytes += found.len;
                continue;
            }
            Outcome::Ended => 0,
            Outcome::Refused(refused) => refused.number,
        };
        let ending = match step.ending {
            CLEAN => "clean",
            DAMAGED => "damaged",
            UNSEALED => "unsealed",
            _ => "incomplete",
        };
        lines.push_str(&format!("end,{ending},{},{refusal},{records},{bytes}\n", step.offset));
        break;
    }
    lines
}
