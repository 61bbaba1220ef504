//! An example of the journal's calls: lists what an image holds, appends one record in memory, and lists again.
//!
//!     cargo run --example append -- ../../examples/update.img [changed.img [counts]]
//!
//! An image is a line with the program unit and the read unit, `4,1` say, and then the bytes of the region. The file
//! that is read stays as it is; a second name, if given, is where the changed image goes. A third is that of the
//! counts, which go on from run to run: five numbers in a line, in the order of `Written`. They are read where there is
//! such a file, and written after stage and after commit.

use std::env;
use std::error::Error;
use std::fmt::Display;
use std::fs;
use std::io::ErrorKind;
use std::process::ExitCode;

use jardolento::{Ending, Geometry, Journal, RecordRef, Recovery, Refusal, Written};

/// The longest region that this example takes. A page of the same length holds every record that fits in it.
const LONGEST: usize = 32_768;

struct Image {
    program_size: usize,
    read_size: usize,
    region: Vec<u8>,
}

fn main() -> ExitCode {
    match run() {
        Ok(()) => ExitCode::SUCCESS,
        Err(error) => {
            eprintln!("{error}");
            ExitCode::FAILURE
        }
    }
}

fn run() -> Result<(), Box<dyn Error>> {
    let arguments: Vec<String> = env::args().skip(1).collect();
    let (path, changed, counts) = match arguments.as_slice() {
        [path] => (path, None, None),
        [path, changed] => (path, Some(changed), None),
        [path, changed, counts] => (path, Some(changed), Some(counts)),
        _ => return Err("usage: append IMAGE [CHANGED [COUNTS]]".into()),
    };
    let mut image = read_image(path).map_err(of(path))?;
    let mut page = vec![0; LONGEST];

    let highest = list(&image, &mut page);
    append(&mut image, &mut page, highest.wrapping_add(1), counts)?;
    list(&image, &mut page);

    if let Some(path) = changed {
        let mut bytes = format!("{},{}\n", image.program_size, image.read_size).into_bytes();
        bytes.extend_from_slice(&image.region);
        fs::write(path, bytes).map_err(of(path))?;
    }
    Ok(())
}

fn read_image(path: &str) -> Result<Image, Box<dyn Error>> {
    let bytes = fs::read(path)?;
    let mut rest = bytes.as_slice();
    let mut unit = |end| read_number(&mut rest, end).ok_or("the first line is not two units, as in 4,1");
    let (program_size, read_size) = (unit(b',')?, unit(b'\n')?);
    if rest.len() > LONGEST {
        return Err("the region is longer than 32768 bytes".into());
    }
    Ok(Image { program_size: program_size as usize, read_size: read_size as usize, region: rest.to_vec() })
}

/// Reads a number without leading zeros, and the byte that ends it. Which numbers will do, the journal says.
fn read_number(rest: &mut &[u8], end: u8) -> Option<u64> {
    let digits = rest.iter().take_while(|byte| byte.is_ascii_digit()).count();
    let (number, behind) = rest.split_at(digits);
    if digits > 1 && number[0] == b'0' {
        return None;
    }
    *rest = behind.strip_prefix(&[end])?;
    std::str::from_utf8(number).ok()?.parse().ok()
}

/// Prints a line for each record: offset, kind, sequence and payload length. Then how reading ended: where, with which
/// refusal, and how many records of how many bytes were found; or that the settings are refused. Why reading was
/// refused it says on standard error. Answers the highest sequence.
fn list(image: &Image, page: &mut [u8]) -> u32 {
    let (mut highest, mut records, mut bytes, mut refusal) = (0, 0, 0, None);
    let mut recovery = match Geometry::new(image.region.len(), image.program_size, image.read_size) {
        Ok(geometry) => Recovery::new(geometry),
        Err(refused) => {
            println!("refused,{}", refused.number());
            return highest;
        }
    };
    while let Some(step) = recovery.next(&image.region, page) {
        match step {
            Ok(found) => {
                let (kind, seq) = (found.record.kind(), found.record.seq());
                println!("{},{kind},{seq},{}", found.offset, found.payload.len());
                highest = highest.max(seq);
                records += 1;
                bytes += found.len;
            }
            Err(refused) => {
                refusal = Some(refused);
                break;
            }
        }
    }
    let ending = match recovery.ending() {
        Some(Ending::Clean { .. }) => "clean",
        Some(Ending::Damaged { .. }) => "damaged",
        Some(Ending::Unsealed { .. }) => "unsealed",
        // Only refused settings leave a recovery open, and these were not.
        Some(Ending::Incomplete { .. }) | None => "incomplete",
    };
    let number = refusal.map_or(0, Refusal::number);
    println!("end,{ending},{},{number},{records},{bytes}", recovery.offset());
    if let Some(refusal) = refusal {
        eprintln!("recovery: {refusal}");
    }
    highest
}

/// The counts to go on from: all 0 where no file is named, or there is none yet.
fn read_counts(path: Option<&String>) -> Result<Written, String> {
    let Some(path) = path else { return Ok(Written::default()) };
    let bytes = match fs::read(path) {
        Err(fault) if fault.kind() == ErrorKind::NotFound => return Ok(Written::default()),
        read => read.map_err(of(path))?,
    };
    let mut rest = bytes.as_slice();
    let fault = "the first line is not five counts, as in 2 24 2 2 0";
    let mut count = |end| read_number(&mut rest, end).ok_or(fault).map_err(of(path));
    Ok(Written {
        payload_bytes: count(b' ')?,
        programmed_bytes: count(b' ')?,
        program_operations: count(b' ')?,
        barriers: count(b' ')?,
        uncommitted_appends: count(b'\n')?,
    })
}

/// Keeps the counts, where a file is named. A box sees to it that a cut leaves the old ones or the new.
fn write_counts(path: Option<&String>, written: Written) -> Result<(), String> {
    let Some(path) = path else { return Ok(()) };
    let Written { payload_bytes, programmed_bytes, program_operations, barriers, uncommitted_appends } = written;
    let line = format!("{payload_bytes} {programmed_bytes} {program_operations} {barriers} {uncommitted_appends}\n");
    fs::write(path, line).map_err(of(path))
}

/// Appends an effect completed. The record counts once its commit has been made.
fn append(image: &mut Image, page: &mut [u8], seq: u32, counts: Option<&String>) -> Result<(), String> {
    let Image { program_size, read_size, region } = image;
    let written = read_counts(counts)?;
    let mut journal = Journal::open_with(written, *program_size, *read_size, region, page).map_err(of("open"))?;
    let offset = journal.offset();
    let record = RecordRef::EffectCompleted { seq, result: b"ok" };
    journal.stage(record, region, page).map_err(of("stage"))?;
    // Kept before the body goes to a device, so that an append which a cut takes is among those not committed.
    write_counts(counts, journal.written())?;
    // Where the region is a device, wait here until it holds the body, and after the commit until it holds the seal.
    journal.payload_barrier(region).map_err(of("payload barrier"))?;
    let written = journal.commit(region).map_err(of("commit"))?;
    write_counts(counts, journal.written())?;
    println!("appended at {offset}: {} bytes, {} of them payload", written.programmed_bytes, written.payload_bytes);
    Ok(())
}

/// Says which call or file a fault is of.
fn of<Fault: Display>(what: &str) -> impl Fn(Fault) -> String + '_ {
    move |fault| format!("{what}: {fault}")
}
