//! Standard output, and files that are written whole.

use crate::failure::Failure;
use crate::options::STANDARD;
use std::cell::RefCell;
use std::ffi::OsStr;
use std::fmt::Display;
use std::fs;
use std::io::{self, BufWriter, StdoutLock, Write};

/// Standard output, buffered. Whoever reads a file flushes it before a wait, so that on a live pipe
/// every line is seen as soon as it is known.
pub struct Out(RefCell<BufWriter<StdoutLock<'static>>>);

impl Out {
    pub fn line(&self, words: impl Display) -> Result<(), Failure> {
        Ok(writeln!(self.0.borrow_mut(), "{words}")?)
    }

    pub fn flush(&self) -> Result<(), Failure> {
        Ok(self.0.borrow_mut().flush()?)
    }
}

/// Carries out `action` over standard output.
pub fn to_standard<T>(action: impl FnOnce(&Out) -> Result<T, Failure>) -> Result<T, Failure> {
    let out = Out(RefCell::new(BufWriter::new(io::stdout().lock())));
    let result = action(&out)?;
    out.flush()?;
    Ok(result)
}

/// A place for what is made of `source`, where bytes can be written one after the other.
pub fn create(path: &OsStr, source: &OsStr) -> Result<Box<dyn Write>, Failure> {
    if path == STANDARD {
        return Ok(Box::new(BufWriter::new(io::stdout().lock())));
    }
    if is_same_file(path, source) {
        let name = path.display();
        return Err(Failure::line(format!(
            "-o {name} would overwrite what it is made of"
        )));
    }
    let file = fs::File::create(path).map_err(|error| Failure::at(path.display(), error))?;
    Ok(Box::new(BufWriter::new(file)))
}

/// Writes what was made of `source` to a file, or to standard output.
pub fn put(path: &OsStr, source: &OsStr, bytes: &[u8]) -> Result<(), Failure> {
    let mut out = create(path, source)?;
    let written = out.write_all(bytes).and_then(|()| out.flush());
    written.map_err(|error| Failure::at(path.display(), error))
}

/// Writes a file so that it is the old one or the new one, and never a part of it. What is no plain
/// file, as a device, is written to as it stands.
pub fn put_whole(path: &OsStr, bytes: &[u8]) -> Result<(), Failure> {
    let failed = |error| Failure::at(path.display(), error);
    if fs::metadata(path).is_ok_and(|data| !data.is_file()) {
        return fs::write(path, bytes).map_err(failed);
    }
    let mut new = path.to_os_string();
    new.push(".new");
    let written = fs::write(&new, bytes).and_then(|()| fs::rename(&new, path));
    written.map_err(|error| {
        // What could not be written whole is of no use.
        let _ = fs::remove_file(&new);
        failed(error)
    })
}

/// Whether two paths lead to one file.
pub fn is_same_file(one: &OsStr, other: &OsStr) -> bool {
    match (fs::canonicalize(one), fs::canonicalize(other)) {
        (Ok(one), Ok(other)) => one == other,
        _ => false,
    }
}
