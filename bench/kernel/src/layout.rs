//! Where things stand in the tables' bytes, as include/reel.h has it. Nothing else in Rust, but for the
//! independent model, says so.

/// The numbers of fast and of slow frames.
pub const P: usize = 0;
pub const S: usize = 1;
/// The records of the 64 pages, one after the other.
pub const PAGES: usize = 2;
/// The register: an entry for each frame number 0 to 253.
pub const REGISTER: usize = 2690;

/// How many pages, stations and copies of a page there are at the most.
pub const MOST_PAGES: usize = 64;
pub const STATIONS: usize = 16;
pub const MOST_COPIES: usize = 8;

/// A page's record, and where in it the rights, the copy entries, the owner and n stand.
pub const PAGE_SIZE: usize = 42;
pub const PAGE_RIGHTS: usize = 0;
pub const PAGE_COPIES: usize = 16;
pub const PAGE_OWNER: usize = 40;
pub const PAGE_N: usize = 41;

/// A copy entry, and where in it the frame and the two marks stand.
pub const COPY_SIZE: usize = 3;
pub const COPY_FRAME: usize = 0;
pub const COPY_CURRENT: usize = 1;
pub const COPY_RECENT: usize = 2;
/// The frame of a null copy.
pub const NULL_FRAME: u8 = 255;

/// How many entries the register has, and how many bytes each of them, the low one first.
pub const REGISTER_ENTRIES: usize = 254;
pub const ENTRY_SIZE: usize = 2;
/// The entry of a frame that no copy is on, and that of a retired one.
pub const FREE_ENTRY: u16 = 65535;
pub const RETIRED_ENTRY: u16 = 61680;

#[cfg(test)]
mod tests {
    use super::*;

    const HEADER: &str = include_str!("../../../include/reel.h");

    /// A number that the header defines.
    fn defined(name: &str) -> usize {
        let mut lines = HEADER.lines();
        let line = lines.find_map(|line| line.strip_prefix(&format!("#define {name} ")));
        let value = line.and_then(|line| line.split_whitespace().next());
        let value = value.unwrap_or_else(|| panic!("{name} is not in the header"));
        value.parse().expect("a number")
    }

    #[test]
    fn the_layout_is_that_of_the_header() {
        let pairs = [
            ("REEL_TABLES_SIZE", crate::TABLES),
            ("REEL_TABLES_P", P),
            ("REEL_TABLES_S", S),
            ("REEL_TABLES_PAGES", PAGES),
            ("REEL_TABLES_REGISTER", REGISTER),
            ("REEL_PAGES", MOST_PAGES),
            ("REEL_STATIONS", STATIONS),
            ("REEL_MOST_COPIES", MOST_COPIES),
            ("REEL_MOST_FRAMES", crate::MOST_FRAMES.into()),
            ("REEL_FRAME_SIZE", crate::FRAME),
            ("REEL_CLOSED_SIZE", crate::CLOSED),
            ("REEL_NUMBERS", crate::NUMBERS),
            ("REEL_FIGURES_SIZE", crate::FIGURES),
            ("REEL_PAGE_SIZE", PAGE_SIZE),
            ("REEL_PAGE_RIGHTS", PAGE_RIGHTS),
            ("REEL_PAGE_COPIES", PAGE_COPIES),
            ("REEL_PAGE_OWNER", PAGE_OWNER),
            ("REEL_PAGE_N", PAGE_N),
            ("REEL_COPY_SIZE", COPY_SIZE),
            ("REEL_COPY_FRAME", COPY_FRAME),
            ("REEL_COPY_CURRENT", COPY_CURRENT),
            ("REEL_COPY_RECENT", COPY_RECENT),
            ("REEL_NULL_FRAME", NULL_FRAME.into()),
            ("REEL_REGISTER_ENTRIES", REGISTER_ENTRIES),
            ("REEL_ENTRY_SIZE", ENTRY_SIZE),
            ("REEL_FREE_ENTRY", FREE_ENTRY.into()),
            ("REEL_RETIRED_ENTRY", RETIRED_ENTRY.into()),
        ];
        for (name, value) in pairs {
            assert_eq!(defined(name), value, "{name}");
        }
        let of_tables = HEADER.matches("#define REEL_TABLES_").count();
        assert_eq!(of_tables, 5, "a part of the tables that is not here");
    }
}
