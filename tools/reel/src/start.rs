//! What a shift starts from, fresh tables or such as were kept, and what is kept at its end.

use crate::failure::Failure;
use crate::options::{Files, Shift, Start};
use crate::output::{is_same_file, put_whole};
use crate::run::{name_of, open};
use crate::{rules, words};
use kernel::{layout, Forecast, Unit, FRAME, TABLES};
use std::ffi::{OsStr, OsString};
use std::io::Read;

/// The kernel's refusal of tables that break a rule, and of stores that do not fit them.
const BROKEN_TABLES: u8 = 5;
const MISFIT_STORE: u8 = 6;
/// No unit has longer stores.
const MOST_STORES: usize = 2 * FRAME * kernel::MOST_FRAMES as usize;

/// The unit that a shift starts from.
pub fn unit(start: &Start) -> Result<Unit, Failure> {
    match start {
        Start::Fresh { fast, slow, .. } => fresh(*fast, *slow),
        Start::Kept(files) => kept(files),
    }
}

/// The tables that a forecast starts from.
pub fn tables(start: &Start<OsString>) -> Result<Vec<u8>, Failure> {
    match start {
        Start::Fresh { fast, slow, .. } => fresh(*fast, *slow).map(|unit| unit.tables),
        Start::Kept(path) => {
            let tables = bytes_of(path, TABLES)?;
            match Forecast::of(&tables, &[]) {
                Ok(_) => Ok(tables),
                Err(number) => Err(broken(number, path, &tables)),
            }
        }
    }
}

fn fresh(fast: u8, slow: u8) -> Result<Unit, Failure> {
    Unit::fresh(fast, slow).map_err(|number| {
        let refused = refused(number);
        Failure::line(format!(
            "tables of {fast} fast and {slow} slow frames: {refused}"
        ))
    })
}

fn refused(number: u8) -> String {
    format!("refused, {number} {}", words::word(number))
}

fn kept(files: &Files) -> Result<Unit, Failure> {
    let tables = bytes_of(&files.tables, TABLES)?;
    let stores = bytes_of(&files.stores, MOST_STORES)?;
    let size = |place: usize| FRAME * usize::from(tables.get(place).copied().unwrap_or(0));
    let (fast_size, slow_size) = (size(layout::P), size(layout::S));
    let length = stores.len();
    let (fast, slow) = stores.split_at(fast_size.min(length));
    Unit::kept(tables.clone(), fast.to_vec(), slow.to_vec()).map_err(|number| match number {
        BROKEN_TABLES => broken(number, &files.tables, &tables),
        MISFIT_STORE => {
            let (name, due) = (name_of(&files.stores), fast_size + slow_size);
            let frames = format!(
                "{} fast and {} slow frames",
                fast_size / FRAME,
                slow_size / FRAME
            );
            Failure::line(format!(
                "{name}: {}: {length} bytes, and {frames} take {due}",
                refused(number)
            ))
        }
        _ => Failure::line(refused(number)),
    })
}

/// The refusal of broken tables, with the rule that they break.
fn broken(number: u8, path: &OsStr, tables: &[u8]) -> Failure {
    let rule = rules::broken(tables);
    let rule = rule.unwrap_or("a table rule fails that reel does not know".into());
    let name = name_of(path);
    Failure::line(format!("{name}: {}: {rule}", refused(number)))
}

/// The bytes of a file, and no more of them than tell that it is too long.
fn bytes_of(path: &OsStr, most: usize) -> Result<Vec<u8>, Failure> {
    let (input, _) = open(path)?;
    let mut bytes = Vec::new();
    let read = input.take(most as u64 + 1).read_to_end(&mut bytes);
    read.map_err(|error| Failure::at(name_of(path), error))?;
    Ok(bytes)
}

/// Writes tables and stores as they are after the last message that was read, where that is asked for.
pub fn keep(shift: &Shift, unit: &Unit) -> Result<(), Failure> {
    let Some(files) = &shift.keep else {
        return Ok(());
    };
    let stores = [&unit.fast[..], &unit.slow].concat();
    put_whole(&files.tables, &unit.tables)?;
    put_whole(&files.stores, &stores)
}

/// Whether what is kept can be written where it is to go, which is told before the shift is run.
pub fn can_keep(shift: &Shift) -> Result<(), Failure> {
    let Some(files) = &shift.keep else {
        return Ok(());
    };
    for path in [&files.tables, &files.stores] {
        if is_same_file(path, &shift.file) {
            let name = path.display();
            return Err(Failure::line(format!(
                "{name} would be written over the call file"
            )));
        }
    }
    match files.tables == files.stores {
        true => Err(Failure::line("tables and stores are kept in two files")),
        false => Ok(()),
    }
}
