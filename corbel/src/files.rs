//! Files read and written: standard input and output where none is named, and results that are there whole or not at all.
use crate::failure::{usage, Failure};
use std::fs::{self, File};
use std::io::{self, BufRead, BufReader, BufWriter, IsTerminal, Read, Write};
use std::path::{Path, PathBuf};
use std::process;

/// The longest file that the library takes, and one byte more, so that a longer one is told from it.
const MOST: u64 = 4 * (corbelrush::MAX_SIDE as u64).pow(2) + corbelrush::PAM_HEADER as u64 + 1;

/// All bytes of a file, or of standard input.
pub fn read(name: Option<&str>) -> Result<Vec<u8>, Failure> {
    let mut bytes = Vec::new();
    let Some(name) = name else {
        let input = io::stdin();
        if input.is_terminal() {
            return usage("standard input is a terminal, and a file is wanted there");
        }
        input.lock().take(MOST).read_to_end(&mut bytes).map_err(|error| system("standard input", error))?;
        return Ok(bytes);
    };
    let whole = File::open(name).and_then(|file| file.take(MOST).read_to_end(&mut bytes));
    whole.map_err(|error| system(name, error))?;
    Ok(bytes)
}

/// The lines of a text, read as they are asked for.
pub fn lines(name: &str) -> Result<impl Iterator<Item = Result<String, Failure>> + '_, Failure> {
    let file = File::open(name).map_err(|error| system(name, error))?;
    Ok(BufReader::new(file).lines().map(move |line| line.map_err(|error| system(name, error))))
}

/// Writes a result to standard output, or to a file.
pub fn write(name: Option<&str>, bytes: &[u8]) -> Result<(), Failure> {
    write_by(name, |output| output.write_all(bytes))
}

/// Writes a result part by part, so that it is not held whole.
pub fn write_by(name: Option<&str>, parts: impl FnOnce(&mut dyn Write) -> io::Result<()>) -> Result<(), Failure> {
    let written = match name {
        None => to(io::stdout().lock(), parts).map(drop),
        Some(name) => whole(Path::new(name), parts),
    };
    written.map_err(|error| system(name.unwrap_or("standard output"), error))
}

/// The parts, all of them, into an output.
fn to<T: Write>(output: T, parts: impl FnOnce(&mut dyn Write) -> io::Result<()>) -> io::Result<T> {
    let mut buffer = BufWriter::new(output);
    parts(&mut buffer)?;
    buffer.into_inner().map_err(|error| error.into_error())
}

/// A file is written under a temporary name beside it and renamed, with the permissions of the one that was there; what is
/// no plain file is written as it is. A link is followed.
fn whole(name: &Path, parts: impl FnOnce(&mut dyn Write) -> io::Result<()>) -> io::Result<()> {
    let name = fs::canonicalize(name).unwrap_or_else(|_| name.to_path_buf());
    let found = fs::metadata(&name);
    if found.as_ref().is_ok_and(|found| !found.is_file()) {
        return to(fs::OpenOptions::new().write(true).open(&name)?, parts).map(drop);
    }
    let mut temporary = name.clone().into_os_string();
    temporary.push(format!(".corbel-{}", process::id()));
    let temporary = PathBuf::from(temporary);
    let written = File::create_new(&temporary)
        .and_then(|file| to(file, parts)?.sync_all())
        .and_then(|()| found.map_or(Ok(()), |found| fs::set_permissions(&temporary, found.permissions())))
        .and_then(|()| fs::rename(&temporary, &name));
    if written.is_err() {
        // Nothing is left behind; that the file could not be written is what is said.
        let _ = fs::remove_file(&temporary);
    }
    written
}

/// So many bytes of zeros, where there is memory for them.
pub fn room(length: usize) -> Result<Vec<u8>, Failure> {
    let mut bytes = Vec::new();
    bytes.try_reserve_exact(length).map_err(|_| Failure::System(format!("no memory for {length} bytes")))?;
    bytes.resize(length, 0);
    Ok(bytes)
}

fn system(name: &str, error: io::Error) -> Failure {
    Failure::System(format!("{name}: {error}"))
}
