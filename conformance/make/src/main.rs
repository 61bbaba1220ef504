//! make: writes the conformance images, their listings, the index and the places.
//!
//!     make            writes conformance/images, conformance/index and conformance/places
//!     make --check    status 1 if what stands there is not what would be written
//!     make --frames   prints the three records of docs/FORMAT.md
//!
//! The listings come from the program that LISTING names, or else from crates/listing/out/listing. The places, which no
//! listing shows, are the library's.

mod frames;
mod laid;
mod set;
mod topics;

use jardolento::{Geometry, Recovery, PAGE_BYTES};
use set::Image;
use std::collections::BTreeMap;
use std::error::Error;
use std::ffi::OsString;
use std::io::Write;
use std::path::{Path, PathBuf};
use std::process::{Command, ExitCode, Stdio};
use std::{env, fs, thread};

/// Files that stand beside the folder of images: the index and the places.
const BESIDE: usize = 2;

type Files = BTreeMap<PathBuf, Vec<u8>>;
type Fallible<T> = Result<T, Box<dyn Error>>;

fn main() -> ExitCode {
    let words: Vec<_> = env::args().skip(1).collect();
    let done = match words.iter().map(String::as_str).collect::<Vec<_>>()[..] {
        [] => files().and_then(|files| write(&files)),
        ["--check"] => files().and_then(|files| check(&files)),
        ["--frames"] => {
            print_frames();
            Ok(())
        }
        _ => Err("usage: make [--check | --frames]".into()),
    };
    match done {
        Ok(()) => ExitCode::SUCCESS,
        Err(error) => {
            eprintln!("make: {error}");
            ExitCode::FAILURE
        }
    }
}

/// The folder conformance.
fn home() -> PathBuf {
    Path::new(env!("CARGO_MANIFEST_DIR")).join("..")
}

/// Every file that is made, by its place in the folder conformance.
fn files() -> Fallible<Files> {
    let listing =
        env::var_os("LISTING").unwrap_or_else(|| home().join("../crates/listing/out/listing").into_os_string());
    let mut files = Files::new();
    let mut index = String::new();
    let mut places = Vec::new();
    for image in topics::all().0 {
        let listed = list(&listing, &image).map_err(|error| format!("{}: {error}", image.name))?;
        index.push_str(&format!("{}: {}\n", image.name, image.tries));
        if let Some(place) = place(&image.bytes).filter(|_| !listed.starts_with(b"refused")) {
            places.push(format!("{},{place}\n", image.name));
        }
        files.insert(format!("images/{}.txt", image.name).into(), listed);
        files.insert(format!("images/{}.img", image.name).into(), image.bytes);
    }
    files.insert("index".into(), index.into_bytes());
    places.sort();
    files.insert("places".into(), places.concat().into_bytes());
    Ok(files)
}

/// What the listing program prints on an image.
fn list(listing: &OsString, image: &Image) -> Fallible<Vec<u8>> {
    let mut child = Command::new(listing)
        .stdin(Stdio::piped())
        .stdout(Stdio::piped())
        .spawn()
        .map_err(|error| format!("{}: {error}; `rt run` in crates/listing makes it", listing.to_string_lossy()))?;
    let mut input = child.stdin.take().expect("the input is a pipe");
    let output = thread::scope(|scope| {
        // The program may not read an input that is too long to its end, which is no fault.
        scope.spawn(move || input.write_all(&image.bytes).ok());
        child.wait_with_output()
    })?;
    if !output.status.success() {
        return Err(format!("the listing program ended with {}", output.status).into());
    }
    Ok(output.stdout)
}

/// The place in the refusal with which a recovery of an image ends.
fn place(image: &[u8]) -> Option<u32> {
    let end = image.iter().position(|byte| *byte == b'\n')?;
    let (program, read) = std::str::from_utf8(&image[..end]).ok()?.split_once(',')?;
    let region = &image[end + 1..];
    let geometry = Geometry::new(region.len(), program.parse().ok()?, read.parse().ok()?).ok()?;
    let mut recovery = Recovery::new(geometry);
    let mut page = vec![0; PAGE_BYTES];
    loop {
        if let Err(refusal) = recovery.next(region, &mut page)? {
            return refusal.place();
        }
    }
}

fn write(files: &Files) -> Fallible<()> {
    let images = home().join("images");
    if images.exists() {
        fs::remove_dir_all(&images)?;
    }
    fs::create_dir_all(&images)?;
    for (place, bytes) in files {
        fs::write(home().join(place), bytes)?;
    }
    println!(
        "{} images, {} bytes with listings, index and places",
        (files.len() - BESIDE) / 2,
        files.values().map(Vec::len).sum::<usize>()
    );
    Ok(())
}

fn check(files: &Files) -> Fallible<()> {
    let there = fs::read_dir(home().join("images"))?.count();
    let made = files.len() - BESIDE;
    if there != made {
        return Err(format!("{there} files stand in images, and {made} would be written").into());
    }
    for (place, bytes) in files {
        if fs::read(home().join(place)).ok().as_ref() != Some(bytes) {
            return Err(format!("{} is not what would be written", place.display()).into());
        }
    }
    println!("{} images are as they would be made", made / 2);
    Ok(())
}

fn print_frames() {
    for example in &frames::EXAMPLES {
        println!("{}\n{}\n", example.tries, frames::hex(example.laid().bytes()));
    }
}
