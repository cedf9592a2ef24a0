//! The cases of document 01, on the kernel and on the model: the worked example, the starred cases,
//! the traps, the impostors and the order of the refusals; and of document 02 the pairs of right
//! and act of request [3], the deletes of request [2], the retired frames of request [5], the
//! rights of new pages of request [6] and the pairs of files of request [7].

use ::model::cases::{
    bytes, example, in_parts, one_by_one, unit, Case, Served, StoreCase, BORDERS, CALLS, CLOSINGS,
    CREATES, DELETES, EXPOSING, HIDDEN, PAIRS, REPLIES, RETIRES, RETIRES_ON_SHAPED, STARRED,
    WIDEST,
};
use ::model::gen::{self, Rng, DAMAGES};
use ::model::hidden;
use ::model::kernel::{Embedded, Kernel, Modelled};
use ::model::model::{
    self, frame_bytes, program, Call, Lent, Reader, Tables, FRAME, FREE_ENTRY, KINDS, LEAST_BUFFER,
    MOST_FRAMES, PROGRAM_INPUT, RAW, RECORD, RETIRED, STATIONS,
};
use reel::words::hex;

/// Both that have to get the cases right.
const BOTH: [&dyn Kernel; 2] = [&Modelled, &Embedded];

/// A kernel, and what it is lent.
#[derive(Clone)]
struct Desk {
    kernel: &'static dyn Kernel,
    lent: Lent,
}

impl Desk {
    fn fresh(kernel: &'static dyn Kernel) -> Desk {
        let lent = unit(LEAST_BUFFER);
        Desk { kernel, lent }
    }

    /// Fresh tables of so many fast frames and as many slow ones, with random bytes in the stores.
    fn of(kernel: &'static dyn Kernel, frames: u8) -> Desk {
        let mut rng = Rng::new(1);
        let mut store = || rng.bytes(FRAME * usize::from(frames));
        let lent = Lent {
            tables: Tables::fresh(frames, frames).to_raw(),
            fast: store(),
            slow: store(),
            out: vec![0xAA; LEAST_BUFFER],
        };
        Desk { kernel, lent }
    }

    /// At the end of the worked example.
    fn example_end(kernel: &'static dyn Kernel) -> Desk {
        let mut desk = Desk::fresh(kernel);
        for line in CALLS {
            desk.accept(line);
        }
        desk
    }

    /// The number given to a message, the bytes laid, and the bytes of its reply after the first
    /// six.
    fn give(&mut self, message: &[u8]) -> (u8, u16, Vec<u8>) {
        let answer = self.kernel.answer(&mut self.lent, message);
        let [number, length, laid @ ..] = answer.to_le_bytes();
        let told = self.lent.out[6..length.into()].to_vec();
        (number, u16::from_le_bytes(laid), told)
    }

    /// The bytes that an accepted call tells.
    fn accept(&mut self, line: &str) -> Vec<u8> {
        let (number, _, told) = self.give(&bytes(line));
        assert_eq!(number, 0, "{line}");
        told
    }

    /// A refused call: its number, with nothing changed but the reply.
    fn refuse(&mut self, line: &str) -> u8 {
        let before = self.lent.clone();
        let (number, laid, told) = self.give(&bytes(line));
        assert_eq!(self.lent.out[..6], [0, 4, 1, number, 0, 0]);
        assert!(number > 0 && laid == 0 && told.is_empty(), "{line}");
        let after = Lent {
            out: before.out.clone(),
            ..self.lent.clone()
        };
        assert_eq!(after, before, "{line}");
        number
    }
}

#[test]
fn worked_example() {
    let due_input = "00 04 01 01 03 05 00 05 01 06 05 00 00 00 04 01 08 05 00 \
                     00 07 01 05 03 05 00 41 37 00 06 01 04 03 05 00 03 00 03 01 0A 05";
    let due_output = "00 04 01 00 00 00 00 04 01 00 00 40 00 04 01 00 00 00 \
                      00 04 01 00 00 02 00 07 01 00 00 00 41 37 00 \
                      00 08 01 00 00 00 01 00 01 01";
    let input = example();
    assert_eq!(hex(&input), due_input);
    assert_eq!(hex(&program(&input)), due_output);
    for kernel in BOTH {
        let replies = one_by_one(kernel, &input).replies;
        assert_eq!(hex(&replies.concat()), due_output);
    }
    assert_eq!(REPLIES.join(" "), due_output);
}

/// The whole list of replies, message by message, in a run and part by part.
fn check(kernel: &dyn Kernel, case: &Case) {
    let (file, due) = (case.file(), case.replies());
    let Served { replies, left, .. } = one_by_one(kernel, &file);
    assert_eq!(replies, due, "{}", case.name);

    let laid = |reply: &Vec<u8>| u32::from(u16::from_be_bytes([reply[4], reply[5]]));
    let tally = [
        due.len() as u32,
        due.iter().filter(|reply| reply[3] != 0).count() as u32,
        due.iter().map(laid).sum(),
    ];
    let (mut end, mut counted) = (unit(LEAST_BUFFER), [0; 3]);
    kernel.run(&mut end, &file, &mut counted);
    assert_eq!((&end, counted), (&left, tally), "{}", case.name);

    for room in [70, 71, 139, 140, 1000] {
        let served = in_parts(kernel, &file, room);
        let Lent { out, .. } = &served.left;
        let due = Served {
            replies: due.clone(),
            left: Lent {
                out: out.clone(),
                ..left.clone()
            },
            tally,
        };
        assert_eq!(served, due, "{} in {room} bytes", case.name);
    }
}

#[test]
fn starred_cases() {
    for kernel in BOTH {
        STARRED.iter().for_each(|case| check(kernel, case));
    }
}

#[test]
fn traps_and_impostors() {
    for kernel in BOTH {
        EXPOSING.iter().for_each(|case| check(kernel, case));
    }
}

#[test]
fn borders() {
    for kernel in BOTH {
        BORDERS.iter().for_each(|case| check(kernel, case));
        check_all(kernel, &[WIDEST]);
    }
}

#[test]
fn pairs_of_right_and_act() {
    for kernel in BOTH {
        PAIRS.iter().for_each(|case| check(kernel, case));
    }
}

/// Two files that differ in what their writes carry: the whole list of each one's replies, and that
/// these and all else that placement sees differ in the data of reads alone.
#[test]
fn contents_are_hidden() {
    let unit = unit(LEAST_BUFFER);
    let other = Lent {
        fast: vec![0; unit.fast.len()],
        ..unit.clone()
    };
    for kernel in BOTH {
        for pair in &HIDDEN {
            pair.iter().for_each(|case| check(kernel, case));
            let [one, other_file] = pair.each_ref().map(Case::file);
            let starts = [unit.clone(), other.clone()];
            let checked = hidden::check_files(kernel, starts, [&one, &other_file]);
            assert_eq!(checked, Ok(()), "{}", pair[0].name);
        }
    }
}

/// Who reads and writes a new page, and one that is closed; and what this leaves in the stores.
#[test]
fn new_pages_and_closed_ones() {
    for kernel in BOTH {
        CREATES.iter().for_each(|case| check(kernel, case));
        check_all(kernel, &CLOSINGS);
    }
}

/// A create and the fifteen grants of right 0, by every station, beside pages of every shape: each
/// is accepted and lays nothing, and the page is left as document 01's create left it, all else as
/// it was.
#[test]
fn a_page_closed_by_each_station() {
    let lent = gen::shaped(&mut Rng::new(1));
    for kernel in BOTH {
        for station in 0..STATIONS as u8 {
            let lent = lent.clone();
            let mut due = lent.clone();
            let mut desk = Desk { kernel, lent };
            let create = Call::Create { station, page: 7 };
            for call in [create].into_iter().chain(gen::closing(station, 7)) {
                assert_eq!(desk.give(&call.encode()), (0, 0, vec![]), "{call:?}");
            }
            let record = &mut due.tables[2 + 7 * RECORD..][..RECORD];
            record[usize::from(station)] = 2;
            record[STATIONS..][..3].copy_from_slice(&[255, 0, 1]);
            record[RECORD - 2..].copy_from_slice(&[station, 1]);
            due.out = desk.lent.out.clone();
            assert_eq!(desk.lent, due, "station {station}");
        }
    }
}

/// The rights in the bytes of a new page, created by each station: 2 for the owner and 1 for all
/// others.
#[test]
fn the_rights_of_a_new_page() {
    for kernel in BOTH {
        for station in 0..STATIONS {
            let mut desk = Desk::fresh(kernel);
            desk.accept(&format!("create {station} 63"));
            let mut due = [1; STATIONS];
            due[station] = 2;
            assert_eq!(desk.lent.tables[2 + 63 * RECORD..][..STATIONS], due);
        }
    }
}

/// Each delete's reply and tally, and every byte that it leaves in the stores: message by message,
/// and by `check` the same in a run and part by part.
#[test]
fn deletes_and_what_they_lay() {
    BOTH.into_iter()
        .for_each(|kernel| check_all(kernel, &DELETES));
}

fn check_all(kernel: &dyn Kernel, cases: &[StoreCase]) {
    for store_case in cases {
        let case = &store_case.case;
        check(kernel, case);
        let left = one_by_one(kernel, &case.file()).left;
        let stores = [left.fast, left.slow];
        assert_eq!(stores, store_case.stores(), "{}", case.name);
    }
}

/// Each retire's reply and tally, what is refused since and what a look shows, and every byte that is
/// left in the stores.
#[test]
fn retires_and_what_they_leave() {
    BOTH.into_iter()
        .for_each(|kernel| check_all(kernel, &RETIRES));
}

/// The same on tables with every shape of page, each call from the same state. An accepted one changes
/// at most the entry of its frame.
#[test]
fn retires_on_shaped_tables() {
    let lent = gen::shaped(&mut Rng::new(1));
    for kernel in BOTH {
        for (line, reply) in RETIRES_ON_SHAPED {
            let mut left = lent.clone();
            let length = kernel.answer(&mut left, &bytes(line)) as usize / 256 % 256;
            assert_eq!(hex(&left.out[..length]), reply, "{line}");
            let mut due = lent.clone();
            due.out = left.out.clone();
            if line == "retire 12" {
                due.tables[2690 + 2 * 12..][..2].fill(0xF0);
            }
            assert_eq!(left, due, "{line}");
        }
    }
}

/// In the largest unit every frame number but 254 and 255 is in range, in the smallest none.
#[test]
fn retires_at_the_borders_of_units() {
    for kernel in BOTH {
        let mut desk = Desk::of(kernel, MOST_FRAMES);
        let mut due = desk.lent.clone();
        assert_eq!(desk.lent.tables.len(), 3198);
        for frame in [0, 126, 127, 253] {
            assert_eq!(
                desk.give(&bytes(&format!("retire {frame}"))),
                (0, 0, vec![])
            );
            let told = desk.accept(&format!("look-frame {frame}"));
            assert_eq!(told, [2, 255, 255]);
            due.tables[2690 + 2 * frame..][..2].fill(0xF0);
        }
        for frame in [254, 255] {
            assert_eq!(desk.refuse(&format!("retire {frame}")), 7);
        }
        due.out = desk.lent.out.clone();
        assert_eq!(desk.lent, due);
        desk.accept("create 0 0");
        assert_eq!(desk.refuse("copy 0 0 253"), 20);
        desk.accept("copy 0 0 252");
        assert_eq!(desk.refuse("retire 252"), 13);

        let mut none = Desk::of(kernel, 0);
        for frame in [0, 1, 253, 254, 255] {
            assert_eq!(none.refuse(&format!("retire {frame}")), 7);
        }
    }
}

/// Every frame retired, one after the other: none is free in the end, and nothing else has changed.
#[test]
fn every_frame_retired() {
    for kernel in BOTH {
        let mut desk = Desk::of(kernel, MOST_FRAMES);
        let mut due = desk.lent.clone();
        for _ in 0..2 {
            for frame in 0..254 {
                desk.accept(&format!("retire {frame}"));
            }
            due.tables[2690..].fill(0xF0);
            due.out = desk.lent.out.clone();
            assert_eq!(desk.lent, due);
        }
        desk.accept("create 0 0");
        for frame in 0..254 {
            assert_eq!(desk.refuse(&format!("copy 0 0 {frame}")), 20);
        }
    }
}

/// Deletes on tables with every shape of page, each from the same state: the frames that it frees,
/// and no other byte of the stores. Random bytes and zeros are freed alike.
#[test]
fn deletes_on_shaped_tables() {
    let accepted: [(&str, &[usize]); 8] = [
        ("delete-copy 0 0", &[3]),
        ("delete-copy 0 1", &[8]),
        ("delete-copy 2 7", &[10]),
        ("delete-page 5 0", &[3, 8, 0]),
        ("delete-page 2 1", &[]),
        ("delete-page 15 2", &[1, 2, 4, 5, 6, 7, 9, 10]),
        ("delete-page 0 5", &[11]),
        ("delete-page 3 63", &[15]),
    ];
    let refused = [
        ("delete-copy 63 0", 15),
        ("delete-copy 1 0", 15),
        ("delete-page 4 63", 10),
        ("delete-page 5 2", 10),
    ];
    let random = gen::shaped(&mut Rng::new(1));
    let mut zeros = random.clone();
    zeros.fast.fill(0);
    zeros.slow.fill(0);
    for lent in [random, zeros] {
        for kernel in BOTH {
            let desk = Desk {
                kernel,
                lent: lent.clone(),
            };
            for (line, frames) in accepted {
                let mut due = [&lent.fast[..], &lent.slow].concat();
                for frame in frames {
                    due[64 * frame..][..64].fill(0);
                }
                let mut desk = desk.clone();
                let (number, laid, told) = desk.give(&bytes(line));
                assert_eq!((number, told), (0, vec![]), "{line}");
                assert_eq!(usize::from(laid), 64 * frames.len(), "{line}");
                assert_eq!([desk.lent.fast, desk.lent.slow].concat(), due, "{line}");
            }
            for (line, number) in refused {
                assert_eq!(desk.clone().refuse(line), number, "{line}");
            }
        }
    }
}

/// What the replies of the traps' files do not show: the bytes in the stores.
#[test]
fn written_copies_and_freed_frames() {
    for kernel in BOTH {
        let mut desk = Desk::example_end(kernel);
        desk.accept("copy 5 0 6");
        desk.accept("current 5 1");
        assert_eq!(desk.give(&bytes("write 3 5 1 09 08 07")).1, 6);
        let tables = Tables::from_raw(&desk.lent.tables).unwrap();
        for frame in [0, 6] {
            let held = frame_bytes(&tables, &desk.lent.fast, &desk.lent.slow, frame);
            assert_eq!(held[..5], [65, 9, 8, 7, 0]);
        }
        assert_eq!(desk.give(&bytes("delete-copy 5 0")).1, 64);
        assert_eq!(desk.lent.fast[..64], [0; 64], "a freed frame is zeros");
        assert_eq!(desk.lent.fast[64..], [0xEE; 192], "no other frame is");
        assert_eq!(desk.lent.slow[2 * 64..][..5], [65, 9, 8, 7, 0]);
        desk.accept("create 2 9");
        desk.accept("copy 9 0 0");
        desk.accept("current 9 0");
        assert_eq!(desk.accept("read 2 9 0 64"), [0; 64]);
    }
}

#[test]
fn copies_close_the_gap_and_null_copy_goes() {
    for kernel in BOTH {
        let mut desk = Desk::fresh(kernel);
        desk.accept("create 0 0");
        assert_eq!(desk.accept("look-page 0"), [1, 255, 0, 1]);
        assert_eq!(desk.refuse("delete-copy 0 0"), 15);
        desk.accept("remove-current 0 0");
        for frame in [3, 4, 7] {
            desk.accept(&format!("copy 0 0 {frame}"));
        }
        desk.accept("delete-copy 0 1");
        assert_eq!(desk.accept("look-page 0"), [2, 3, 0, 1, 7, 0, 1]);
        assert_eq!(desk.accept("look-frame 7"), [1, 0, 1]);
        assert_eq!(desk.accept("look-frame 4"), [0, 255, 255]);
        desk.accept("delete-page 0 0");
        assert_eq!(desk.lent.tables, unit(LEAST_BUFFER).tables);
    }
}

#[test]
fn owner_with_lowered_right_still_owns() {
    for kernel in BOTH {
        let mut desk = Desk::example_end(kernel);
        desk.accept("grant 3 5 3 0");
        assert_eq!(desk.refuse("read 3 5 0 1"), 10);
        desk.accept("grant 3 5 4 0");
        assert_eq!(desk.refuse("read 4 5 0 1"), 10);
        desk.accept("grant 3 5 4 1");
        desk.accept("read 4 5 0 1");
        assert_eq!(desk.refuse("write 4 5 0 01"), 10);
        assert_eq!(desk.refuse("grant 4 5 4 2"), 10);
        desk.accept("delete-page 3 5");
    }
}

#[test]
fn lengths_of_the_kinds() {
    let lengths: [&[usize]; KINDS] = [
        &[4],
        &[4],
        &[6],
        &[6],
        &[6, 69],
        &[5],
        &[4],
        &[4],
        &[4],
        &[3],
        &[3],
        &[3],
    ];
    for (kind, due) in (1..).zip(lengths) {
        let (least, most) = (due[0], due[due.len() - 1]);
        for length in 2..80 {
            let message = model::message(1, kind, &vec![0; length - 2]);
            let fits = (least..=most).contains(&length);
            for kernel in BOTH {
                let (number, ..) = Desk::fresh(kernel).give(&message);
                assert_eq!(number != 4, fits, "kind {kind}, L {length}");
            }
        }
    }
}

/// Each fault of a message or of what is lent, in the order in which they count.
#[test]
fn order_of_the_refusals() {
    BOTH.into_iter().for_each(order_of_refusals);
}

fn order_of_refusals(kernel: &dyn Kernel) {
    let number = |lent: &Lent, message: &[u8]| kernel.answer(&mut lent.clone(), message) % 256;
    let sound = gen::shaped(&mut Rng::new(1));
    let misfit = Lent {
        slow: Vec::new(),
        ..sound.clone()
    };
    let broken = Lent {
        tables: vec![0; RAW],
        ..misfit.clone()
    };
    let short = Lent {
        out: vec![0; 69],
        ..broken.clone()
    };
    assert_eq!(number(&short, &[]), 18);
    assert_eq!(number(&broken, &[]), 1);
    assert_eq!(number(&broken, &[0]), 1);
    assert_eq!(number(&broken, &[0, 4, 9, 0, 0]), 1);
    assert_eq!(number(&broken, &[0, 0]), 2);
    assert_eq!(number(&broken, &[0, 1, 2]), 2);
    assert_eq!(number(&broken, &[0, 2, 2, 0]), 2);
    assert_eq!(number(&broken, &[0, 1, 1]), 3);
    assert_eq!(number(&broken, &[0, 2, 1, 13]), 3);
    assert_eq!(number(&broken, &[0, 2, 1, 12]), 4);
    assert_eq!(number(&broken, &bytes("retire 16")), 5);
    assert_eq!(number(&misfit, &bytes("retire 16")), 6);
    assert_eq!(number(&broken, &bytes("look-page 64")), 5);
    assert_eq!(number(&misfit, &bytes("look-page 64")), 6);
    for (line, due) in [
        ("look-page 64", 7),
        ("create 16 0", 7),
        ("grant 0 3 16 0", 7),
        ("grant 0 3 0 3", 7),
        ("read 0 3 64 1", 7),
        ("read 0 3 0 0", 7),
        ("read 0 3 63 255", 7),
        ("write 0 3 63 01 02", 7),
        ("copy 3 0 16", 7),
        ("look-frame 255", 7),
        ("create 0 0", 8),
        ("grant 0 3 0 0", 9),
        ("copy 3 9 0", 9),
        ("delete-page 0 5", 0),
        ("delete-page 5 5", 10),
        ("read 3 63 0 1", 10),
        ("read 4 63 0 1", 11),
        ("write 4 63 0 01", 10),
        ("write 5 63 0 01", 11),
        ("copy 2 8 0", 12),
        ("copy 2 0 0", 13),
        ("copy 2 0 12", 14),
        ("delete-copy 63 1", 12),
        ("delete-copy 63 0", 15),
        ("current 0 3", 12),
        ("current 1 0", 17),
        ("current 0 0", 16),
        ("current 0 1", 0),
        ("remove-current 0 0", 0),
        ("remove-current 0 3", 12),
    ] {
        assert_eq!(number(&sound, &bytes(line)), due, "{line}");
    }
}

#[test]
fn every_damage_breaks_the_tables() {
    let mut rng = Rng::new(1);
    for (name, damage) in DAMAGES {
        for _ in 0..100 {
            let mut lent = gen::shaped(&mut rng);
            assert_eq!(BOTH.map(|kernel| kernel.rules(&lent)), [0, 0]);
            damage(&mut rng, &mut lent);
            assert_eq!(BOTH.map(|kernel| kernel.rules(&lent)), [5, 5], "{name}");
        }
    }
}

/// The register in bytes: the frames that are held or retired after each call, with their entries.
#[test]
fn the_register_follows_every_step() {
    let steps: [(&str, &[(usize, u16)]); 9] = [
        ("create 3 5", &[]),
        ("copy 5 0 0", &[(0, 40)]),
        ("copy 5 0 6", &[(0, 40), (6, 41)]),
        ("copy 5 0 2", &[(0, 40), (6, 41), (2, 42)]),
        ("create 3 1", &[(0, 40), (6, 41), (2, 42)]),
        ("copy 1 0 7", &[(0, 40), (6, 41), (2, 42), (7, 8)]),
        (
            "retire 3",
            &[(0, 40), (6, 41), (2, 42), (7, 8), (3, 0xF0F0)],
        ),
        ("delete-copy 5 0", &[(6, 40), (2, 41), (7, 8), (3, 0xF0F0)]),
        ("delete-page 3 5", &[(7, 8), (3, 0xF0F0)]),
    ];
    for kernel in BOTH {
        let mut desk = Desk::fresh(kernel);
        for (line, held) in steps {
            desk.accept(line);
            let mut due = vec![255; 2 * 254];
            for &(frame, entry) in held {
                due[2 * frame..][..2].copy_from_slice(&entry.to_le_bytes());
            }
            assert_eq!(desk.lent.tables[2690..], due, "{line}");
        }
    }
}

/// The frames that are retired after each call.
#[test]
fn the_retired_follow_every_step() {
    let steps: [(&str, &[usize]); 9] = [
        ("create 3 5", &[]),
        ("retire 7", &[7]),
        ("copy 5 0 0", &[7]),
        ("retire 2", &[2, 7]),
        ("copy 5 0 6", &[2, 7]),
        ("retire 7", &[2, 7]),
        ("delete-copy 5 0", &[2, 7]),
        ("retire 0", &[0, 2, 7]),
        ("delete-page 3 5", &[0, 2, 7]),
    ];
    for kernel in BOTH {
        let mut desk = Desk::fresh(kernel);
        for (line, retired) in steps {
            desk.accept(line);
            let out = |&frame: &usize| gen::holder(&desk.lent.tables, frame as u8) == RETIRED;
            let left: Vec<usize> = (0..254).filter(out).collect();
            assert_eq!(left, retired, "{line}");
        }
    }
}

#[test]
fn the_register_has_what_looks_tell() {
    let mut rng = Rng::new(1);
    for _ in 0..100 {
        let lent = gen::lawful(&mut rng);
        let tables = Tables::from_raw(&lent.tables).expect("lawful tables");
        for frame in 0..tables.frames() as u8 {
            let due = match gen::holder(&lent.tables, frame) {
                RETIRED => [2, 255, 255],
                FREE_ENTRY => [0, 255, 255],
                entry => [1, (entry / 8) as u8, (entry % 8) as u8],
            };
            for kernel in BOTH {
                let lent = lent.clone();
                let told = Desk { kernel, lent }.accept(&format!("look-frame {frame}"));
                assert_eq!(told, due, "frame {frame}");
            }
        }
    }
}

/// Of a held, a free and a retired frame, every change of the entry: the rules let pass but that between
/// free and retired, of eight bits.
#[test]
fn no_flip_of_a_few_bits_passes_for_another_state() {
    let lines = ["create 3 5", "copy 5 0 0", "retire 2"];
    for kernel in BOTH {
        let mut desk = Desk::fresh(kernel);
        for line in lines {
            desk.accept(line);
        }
        for (frame, entry) in [(0, 40), (1, 0xFFFF), (2, 0xF0F0)] {
            assert_eq!(gen::holder(&desk.lent.tables, frame), entry);
            for flips in 1..=u16::MAX {
                gen::set_holder(&mut desk.lent.tables, frame, entry ^ flips);
                let passes = entry != 40 && flips == 0x0F0F;
                let due = if passes { 0 } else { 5 };
                assert_eq!(kernel.rules(&desk.lent), due, "{entry:04X} {flips:04X}");
            }
            gen::set_holder(&mut desk.lent.tables, frame, entry);
        }
    }
}

#[test]
fn raw_tables_come_back() {
    let mut rng = Rng::new(1);
    for _ in 0..100 {
        let lent = gen::lawful(&mut rng);
        let tables = Tables::from_raw(&lent.tables).expect("lawful tables");
        assert_eq!(tables.to_raw(), lent.tables);
    }
}

#[test]
fn runs_and_tallies() {
    for kernel in BOTH {
        let mut lent = unit(LEAST_BUFFER);
        let mut tally = [0; 3];
        kernel.run(&mut lent, &[], &mut tally);
        assert_eq!((tally, &lent), ([0; 3], &unit(LEAST_BUFFER)));

        let mut file = example();
        file.extend([0, 1, 1, 0, 9, 9]);
        kernel.run(&mut lent, &file, &mut tally);
        assert_eq!(tally, [8, 2, 66]);
        assert_eq!(lent.out[..11], [0, 4, 1, 1, 0, 0, 1, 0, 1, 1, 0xAA]);

        let mut tally = [u32::MAX - 1, u32::MAX, u32::MAX - 65];
        kernel.run(&mut unit(LEAST_BUFFER), &file, &mut tally);
        assert_eq!(tally, [u32::MAX; 3]);

        let mut short = unit(69);
        let mut tally = [0; 3];
        kernel.run(&mut short, &file, &mut tally);
        assert_eq!((tally, short), ([8, 8, 0], unit(69)));
    }
}

/// Every place of a file, sensible or not, and beyond its end, with reply buffers of many lengths.
#[test]
fn replies_from_every_place() {
    let broken = [&EXPOSING[12].file()[..], &[0, 1, 1, 0, 9, 9]].concat();
    for file in [&EXPOSING[2].file(), &broken, &vec![]] {
        let places = (0..file.len() + 3).chain([usize::MAX - 1, usize::MAX]);
        for at in places {
            for room in [0, 1, 69, 70, 71, 75, 76, 77, 139, 140, 141, 1000] {
                let mut lents = [unit(room), unit(room)];
                let mut tallies = [[1, u32::MAX, 3]; 2];
                let pairs = lents.iter_mut().zip(&mut tallies);
                let mut reached = BOTH
                    .into_iter()
                    .zip(pairs)
                    .map(|(kernel, (lent, tally))| kernel.replies(lent, file, at, tally));
                assert_eq!(reached.next(), reached.next(), "{at} in {room} bytes");
                drop(reached);
                assert_eq!(lents[0], lents[1], "{at} in {room} bytes");
                assert_eq!(tallies[0], tallies[1], "{at} in {room} bytes");
            }
        }
    }
}

/// A short reply buffer takes nothing, and the run goes on to the file's end.
#[test]
fn replies_in_a_short_buffer() {
    for kernel in BOTH {
        let (mut lent, mut tally) = (unit(69), [0; 3]);
        let file = example();
        let reached = kernel.replies(&mut lent, &file, 0, &mut tally);
        assert_eq!((reached.at, reached.used), (file.len(), 0));
        assert_eq!((tally, lent), ([6, 6, 0], unit(69)));
    }
}

/// A read in either store, its place and its bytes.
#[test]
fn reads_as_places() {
    for kernel in BOTH {
        let mut desk = Desk::example_end(kernel);
        let place = |desk: &Desk, arguments| {
            let place = desk.kernel.read(&desk.lent, arguments);
            (place % 256, place / 256 % 256, place / 65536)
        };
        assert_eq!(place(&desk, [3, 5, 0, 3]), (3, 0, 0));
        assert_eq!(place(&desk, [3, 5, 63, 1]), (1, 0, 63));
        assert_eq!(place(&desk, [3, 5, 63, 2]), (0, 0, 0));
        assert_eq!(place(&desk, [4, 5, 0, 1]), (1, 0, 0));
        desk.accept("grant 3 5 4 0");
        assert_eq!(place(&desk, [4, 5, 0, 1]), (0, 0, 0));
        desk.accept("copy 5 0 6");
        desk.accept("current 5 1");
        assert_eq!(place(&desk, [3, 5, 1, 64 - 1]), (63, 0, 1));
        desk.accept("remove-current 5 0");
        assert_eq!(place(&desk, [3, 5, 1, 64 - 1]), (63, 1, 2 * 64 + 1));
        desk.lent.out.clear();
        assert_eq!(place(&desk, [3, 5, 1, 64 - 1]), (63, 1, 2 * 64 + 1));
        desk.lent.slow.pop();
        assert_eq!(place(&desk, [3, 5, 1, 64 - 1]), (0, 0, 0));
    }
}

#[test]
fn reader_passes_over_by_length() {
    let file = [0, 0, 0, 3, 1, 10, 5, 0, 1, 7, 0];
    let turns: Vec<&[u8]> = Reader::new(&file).collect();
    assert_eq!(turns, [&file[..2], &file[2..7], &file[7..10], &file[10..]]);
    assert_eq!(Reader::new(&[0, 9, 1, 1]).count(), 1);
}

#[test]
fn program_takes_60000_bytes() {
    let looks = bytes("look-page 0").repeat(PROGRAM_INPUT / 5);
    assert_eq!(looks.len(), PROGRAM_INPUT);
    let replies = program(&looks);
    assert_eq!(program(&[looks.clone(), looks].concat()), replies);
    let shifted = [&[0, 0], bytes("look-page 0").repeat(12000).as_slice()].concat();
    let end = program(&shifted);
    assert_eq!(end[end.len() - 6..], [0, 4, 1, 1, 0, 0]);
}
