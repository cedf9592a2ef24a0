//! A read as a part of the lent fast or slow store (`steps::read`), by `reel_read_first` of the crate timing_c, which
//! tells how many bytes that part has and the first of them. The kernel's reply to the same read has the same bytes.
//! And what the search of the pages finds on a frame (`Tables::holder`), by `reel_searched` beside it: the kernel's
//! reply to a look at the frame, which reads the register, shows the same.

use ::model::cases::{bytes, unit, CALLS};
use ::model::gen::{self, Rng};
use ::model::kernel::{Embedded, Kernel};
use ::model::model::{Lent, LEAST_BUFFER, MOST_FRAMES, PAGES, RAW, STATIONS};

// A slice passes as pointer and length.
#[link(name = "timing_c", kind = "static")]
extern "C" {
    fn reel_read_first(
        tables: *const u8,
        tables_len: usize,
        fast: *const u8,
        fast_len: usize,
        slow: *const u8,
        slow_len: usize,
        station: u8,
        page: u8,
        offset: u8,
        count: u8,
    ) -> u32;

    fn reel_searched(tables: *const u8, tables_len: usize, frame: u8) -> u32;
}

/// Station, page, offset and count of a read.
type Arguments = [u8; 4];

/// How many bytes a read's part of a store has, and the first of them; (0, 0) where the read is refused.
fn part(lent: &Lent, [station, page, offset, count]: Arguments) -> (u32, u32) {
    let Lent {
        tables, fast, slow, ..
    } = lent;
    // SAFETY: each pointer comes with its length from a live slice, and nothing is written.
    let told = unsafe {
        reel_read_first(
            tables.as_ptr(),
            tables.len(),
            fast.as_ptr(),
            fast.len(),
            slow.as_ptr(),
            slow.len(),
            station,
            page,
            offset,
            count,
        )
    };
    (told / 256, told % 256)
}

/// The same of the data in the kernel's reply.
fn replied(lent: &Lent, [station, page, offset, count]: Arguments) -> (u32, u32) {
    let mut lent = Lent {
        out: vec![0; LEAST_BUFFER],
        ..lent.clone()
    };
    let message = [0, 6, 1, 4, station, page, offset, count];
    let length = Embedded.answer(&mut lent, &message) / 256 % 256;
    let data = &lent.out[6..length as usize];
    let first = data.first().copied().unwrap_or(0);
    (data.len() as u32, first.into())
}

/// What both tell of a read.
fn told(lent: &Lent, arguments: Arguments) -> (u32, u32) {
    let part = part(lent, arguments);
    assert_eq!(part, replied(lent, arguments), "{arguments:?}");
    part
}

/// The unit with page 5 of the worked example, its first byte 41 and its last one 99, after these calls.
fn after(calls: &[&str]) -> Lent {
    let mut lent = unit(LEAST_BUFFER);
    for line in CALLS.iter().chain(&["write 3 5 63 99"]).chain(calls) {
        assert_eq!(Embedded.answer(&mut lent, &bytes(line)) % 256, 0, "{line}");
    }
    lent
}

/// Page 5 on slow frame 6 alone.
const MOVED: [&str; 3] = ["copy 5 0 6", "current 5 1", "delete-copy 5 0"];

#[test]
fn first_and_last_bytes_in_either_store() {
    for lent in [after(&[]), after(&MOVED)] {
        assert_eq!(told(&lent, [3, 5, 0, 1]), (1, 0x41));
        assert_eq!(told(&lent, [3, 5, 0, 64]), (64, 0x41));
        assert_eq!(told(&lent, [3, 5, 1, 63]), (63, 0x37));
        assert_eq!(told(&lent, [3, 5, 62, 2]), (2, 0));
        assert_eq!(told(&lent, [3, 5, 63, 1]), (1, 0x99));
    }
}

#[test]
fn refused_reads() {
    // Station 4 reads the page as long as its right is not taken away.
    assert_eq!(told(&after(&[]), [4, 5, 0, 1]), (1, 0x41));
    let lent = after(&["grant 3 5 4 0"]);
    // Out of range; no page; no right.
    for arguments in [
        [16, 5, 0, 1],
        [3, 64, 0, 1],
        [3, 5, 0, 0],
        [3, 5, 0, 65],
        [3, 5, 63, 2],
        [3, 5, 64, 1],
        [3, 5, 255, 1],
        [3, 6, 0, 1],
        [4, 5, 0, 1],
    ] {
        assert_eq!(told(&lent, arguments), (0, 0), "{arguments:?}");
    }
    // Nothing current.
    assert_eq!(told(&after(&["remove-current 5 0"]), [3, 5, 0, 1]), (0, 0));
    assert_eq!(told(&after(&["create 3 6"]), [3, 6, 0, 1]), (0, 0));
}

#[test]
fn misfit_stores_and_broken_tables() {
    for calls in [&[][..], &MOVED] {
        let right = after(calls);
        let broken: [fn(&mut Lent); 9] = [
            |lent| lent.fast.truncate(4 * 64 - 1),
            |lent| lent.fast.push(0),
            |lent| lent.fast.clear(),
            |lent| lent.slow.truncate(4 * 64 - 1),
            |lent| lent.slow.extend([0; 64]),
            |lent| lent.tables[0] = MOST_FRAMES + 1,
            |lent| lent.tables[RAW - 1] = 254,
            |lent| lent.tables.truncate(RAW - 1),
            |lent| lent.tables.clear(),
        ];
        for (number, damage) in broken.into_iter().enumerate() {
            let mut lent = right.clone();
            damage(&mut lent);
            assert_eq!(told(&lent, [3, 5, 0, 1]), (0, 0), "damage {number}");
        }
    }
}

/// Reads on random tables, which keep the rules or break one, with stores that fit or do not: of every page, by any
/// station and at any offset.
#[test]
fn reads_on_random_tables() {
    let mut rng = Rng::new(1);
    let (mut in_fast, mut in_slow, mut refused) = (0, 0, 0);
    for round in 0..1000 {
        let mut lent = gen::lawful(&mut rng);
        if round % 4 == 0 {
            gen::hinder(&mut rng, &mut lent);
        }
        for page in 0..PAGES as u8 {
            let offset = rng.within(0, 63);
            let count = rng.within(1, 64 - offset);
            let station = rng.within(0, STATIONS as u8 - 1);
            let arguments = [station, page, offset, count];
            let place = Embedded.read(&lent, arguments);
            match (told(&lent, arguments), place / 256 % 256) {
                ((0, _), _) => refused += 1,
                (_, 0) => in_fast += 1,
                _ => in_slow += 1,
            }
        }
    }
    assert!(
        in_fast > 1000 && in_slow > 1000 && refused > 1000,
        "{in_fast} {in_slow} {refused}"
    );
}

/// What the search finds on a frame, as the three bytes of a look.
fn searched(lent: &Lent, frame: u8) -> [u8; 3] {
    // SAFETY: the pointer comes with its length from a live slice, and nothing is written.
    let found = unsafe { reel_searched(lent.tables.as_ptr(), lent.tables.len(), frame) };
    [found as u8, (found >> 8) as u8, (found >> 16) as u8]
}

/// Every frame of random tables that keep the rules: free, held and retired ones.
#[test]
fn frames_as_the_search_finds_them() {
    let mut rng = Rng::new(1);
    let mut seen = [0; 3];
    for _ in 0..300 {
        let mut lent = gen::lawful(&mut rng);
        lent.out = vec![0; LEAST_BUFFER];
        for frame in 0..lent.tables[0] + lent.tables[1] {
            assert_eq!(Embedded.answer(&mut lent, &[0, 3, 1, 11, frame]) % 256, 0);
            let shown = [lent.out[6], lent.out[7], lent.out[8]];
            assert_eq!(searched(&lent, frame), shown, "frame {frame}");
            seen[usize::from(shown[0])] += 1;
        }
    }
    assert!(seen.iter().all(|frames| *frames > 100), "{seen:?}");
}
