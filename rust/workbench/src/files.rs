//! Files that are read and written. `-` is standard input or standard output.

use std::ffi::OsStr;
use std::fs::{self, File};
use std::io::{self, IsTerminal, Read, Write};
use std::path::Path;

use crate::failed::{io_failed, mistake, Failed};
use crate::story::{asm::asm, Story};

/// How a file is called in messages.
pub fn called(name: &OsStr, stream: &str) -> String {
    match name == "-" {
        true => stream.to_string(),
        false => Path::new(name).display().to_string(),
    }
}

/// Whether a name is that of a story: it ends in `.story`.
pub fn is_story(name: &OsStr) -> bool {
    Path::new(name).extension() == Some(OsStr::new("story"))
}

/// Opens a file for reading.
pub fn open(name: &OsStr) -> Result<Box<dyn Read>, Failed> {
    if name == "-" {
        if io::stdin().is_terminal() {
            let _ = writeln!(
                io::stderr(),
                "naszeptan: waiting for standard input; ctrl-D ends it"
            );
        }
        return Ok(Box::new(io::stdin().lock()));
    }
    let what = called(name, "standard input");
    if Path::new(name).is_dir() {
        return Err(mistake(format!("{what}: it is a directory")));
    }
    let file = File::open(name).map_err(|why| io_failed(&what, &why))?;
    Ok(Box::new(file))
}

/// Reads once; a read that a signal broke off is tried again.
pub fn read_once(from: &mut dyn Read, piece: &mut [u8]) -> io::Result<usize> {
    loop {
        match from.read(piece) {
            Err(why) if why.kind() == io::ErrorKind::Interrupted => continue,
            read => return read,
        }
    }
}

/// All bytes of a file.
pub fn read(name: &OsStr) -> Result<Vec<u8>, Failed> {
    let mut bytes = Vec::new();
    let read = open(name)?.read_to_end(&mut bytes);
    read.map_err(|why| io_failed(&called(name, "standard input"), &why))?;
    Ok(bytes)
}

/// A story's text.
pub fn read_text(name: &OsStr) -> Result<String, Failed> {
    let what = called(name, "standard input");
    String::from_utf8(read(name)?).map_err(|why| {
        let at = why.utf8_error().valid_up_to();
        mistake(format!("{what}: it is no text: byte {at} is not UTF-8"))
    })
}

/// Reads a story, and says where it is wrong.
pub fn read_story(name: &OsStr) -> Result<Story, Failed> {
    let what = called(name, "standard input");
    let text = read_text(name)?;
    asm(&text).map_err(|wrong| mistake(format!("{what}:{wrong}")))
}

/// A tape: its bytes as they are, or those of a story, with its names.
pub fn read_tape(name: &OsStr) -> Result<Story, Failed> {
    if is_story(name) {
        return read_story(name);
    }
    Ok(Story {
        bytes: read(name)?,
        ..Story::default()
    })
}

/// Writes all of a file.
pub fn write(name: &OsStr, bytes: &[u8]) -> Result<(), Failed> {
    if name == "-" {
        return print(bytes);
    }
    let what = called(name, "standard output");
    fs::write(name, bytes).map_err(|why| io_failed(&what, &why))
}

/// Writes to standard output.
pub fn print(bytes: &[u8]) -> Result<(), Failed> {
    let mut stream = io::stdout().lock();
    let written = stream.write_all(bytes).and_then(|()| stream.flush());
    written.map_err(|why| io_failed("standard output", &why))
}
