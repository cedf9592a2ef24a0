//! "Forecast of a call file", request [8] of document 02: worked figures, files cut at every length,
//! broken tables, figures of other lengths and full counters, on the kernel and on the model; and that
//! the stores of a run have no part in its figures.

use ::model::cases::{bytes, unit, CALLS};
use ::model::forecast::{Course, Forecast, FIGURES};
use ::model::gen::{self, Moves, Rng, DAMAGES};
use ::model::kernel::{Embedded, Kernel, Modelled};
use ::model::model::{Lent, Tables, ENTRIES, FRAME, LEAST_BUFFER, RAW};

const BOTH: [&dyn Kernel; 2] = [&Modelled, &Embedded];

/// What is lent for figures before they are laid there.
const LENT: u32 = 0xA5A5A5A5;

/// What a kernel forecasts: its number and the figures.
fn foretold(kernel: &dyn Kernel, tables: &[u8], file: &[u8]) -> (u8, [u32; FIGURES]) {
    let mut figures = [LENT; FIGURES];
    let before = tables.to_vec();
    let number = kernel.forecast(tables, file, &mut figures);
    assert_eq!(before, tables);
    (number, figures)
}

/// What is due of sound tables: the most frames held, the bytes laid, and the counts that are not 0.
fn due(most: usize, laid: u32, given: &[(usize, u32)]) -> (u8, [u32; FIGURES]) {
    let mut forecast = Forecast {
        most,
        laid,
        ..Forecast::default()
    };
    for &(number, count) in given {
        forecast.counts[number] = count;
    }
    (0, forecast.figures())
}

const BROKEN: (u8, [u32; FIGURES]) = (5, [0; FIGURES]);

fn file_of(lines: &[&str]) -> Vec<u8> {
    lines.iter().flat_map(|line| bytes(line)).collect()
}

/// The tables that a kernel's run of these lines leaves, from the paper's fresh ones.
fn tables_after(lines: &[&str]) -> Vec<u8> {
    let mut lent = unit(LEAST_BUFFER);
    let mut tally = [0; 3];
    Embedded.run(&mut lent, &file_of(lines), &mut tally);
    assert_eq!(tally[1], 0, "{lines:?}");
    lent.tables
}

/// Two pages: one with copies on three frames, one with a null copy; and a frame retired.
const SOME: [&str; 7] = [
    "create 3 5",
    "copy 5 0 0",
    "copy 5 0 4",
    "copy 5 0 1",
    "current 5 0",
    "create 3 6",
    "retire 7",
];

#[test]
fn worked_figures() {
    let fresh = unit(LEAST_BUFFER).tables;
    let some = tables_after(&SOME);
    let deletes = ["delete-copy 5 2", "delete-page 3 5", "delete-page 3 6"];
    let cases: [(&[u8], Vec<u8>, _); 9] = [
        (&fresh, vec![], due(0, 0, &[])),
        (&fresh, file_of(&CALLS), due(1, 66, &[(0, 6)])),
        (&fresh, vec![0], due(0, 0, &[(1, 1)])),
        // Null copies and retired frames are not held.
        (&some, vec![], due(3, 0, &[])),
        // Held at the start, and fewer after each message.
        (&some, file_of(&deletes), due(3, 192, &[(0, 3)])),
        // Held on the way, and fewer at the start and at the end.
        (
            &some,
            file_of(&["copy 6 0 2", "delete-page 3 5", "copy 6 0 3"]),
            due(4, 64 + 192 + 64, &[(0, 3)]),
        ),
        // Refused messages hold and lay nothing, and are counted.
        (
            &some,
            file_of(&[
                "copy 6 0 7",
                "copy 6 0 1",
                "copy 6 0 8",
                "write 4 5 0 41 42",
            ]),
            due(3, 0, &[(20, 1), (13, 1), (7, 1), (10, 1)]),
        ),
        // A cut end is one message, whatever it would have been.
        (
            &some,
            [&bytes("copy 6 0 2")[..], &[0, 5, 1, 6, 6, 0]].concat(),
            due(4, 64, &[(0, 1), (1, 1)]),
        ),
        // 2, 3 and 4 by a message's own bytes.
        (
            &some,
            vec![0, 0, 0, 1, 1, 0, 3, 1, 1, 0, 0, 0],
            due(3, 0, &[(2, 2), (3, 1), (4, 1)]),
        ),
    ];
    for kernel in BOTH {
        for (tables, file, due) in &cases {
            assert_eq!(foretold(kernel, tables, file), *due, "{file:?}");
        }
    }
}

/// From fresh tables and from those in the midst of a run, a file is cut at every length.
#[test]
fn files_cut_at_every_length() {
    let mut rng = Rng::new(1);
    for _ in 0..3 {
        let start = gen::roomy(&mut rng);
        let file = gen::deep_file(&mut rng, start.tables[0], start.tables[1]);
        let mut midst = start.clone();
        Embedded.run(&mut midst, &file[..file.len() / 2], &mut []);
        for lent in [&start, &midst] {
            for length in 0..=file.len() {
                let (tables, cut) = (&lent.tables, &file[..length]);
                let given = foretold(&Embedded, tables, cut);
                assert_eq!(given, foretold(&Modelled, tables, cut), "{length} bytes");
            }
        }
    }
}

/// A generated file, and what it starts from: fresh tables, or such as a run could leave.
fn shift(rng: &mut Rng, start: Lent, messages: usize) -> (Lent, Vec<u8>) {
    let (mut lent, mut file) = (start.clone(), Vec::new());
    let mut moves = Moves::new(rng);
    for _ in 0..messages {
        let tables = Tables::from_raw(&lent.tables).expect("sound tables");
        let message = moves.next(rng, &tables, &lent, false);
        Modelled.answer(&mut lent, &message);
        file.extend(message);
    }
    (start, file)
}

/// The figures are those of the run, whatever its stores hold.
#[test]
fn the_stores_have_no_part_in_it() {
    for seed in 0..100 {
        let rng = &mut Rng::new(seed);
        let start = match seed % 2 {
            0 => gen::fresh(rng),
            _ => gen::lawful(rng),
        };
        let (mut start, file) = shift(rng, start, 200);
        let due = foretold(&Embedded, &start.tables, &file);
        for _ in 0..3 {
            rng.fill(&mut start.fast);
            rng.fill(&mut start.slow);
            let run = Course::run(start.clone(), &file).expect("sound tables");
            assert_eq!((0, Forecast::of(&run).figures()), due, "seed {seed}");
        }
    }
}

/// 5, and every figure 0: with any rule broken, with marks that are neither 0 nor 1 and with bytes of
/// another length, whatever the file.
#[test]
fn broken_tables_have_no_figures() {
    let mut rng = Rng::new(1);
    let shaped = gen::shaped(&mut rng);
    let file = gen::shaped_calls(&mut rng)
        .map(|call| call.encode())
        .concat();
    let mut broken: Vec<Vec<u8>> = vec![vec![], shaped.tables[1..].to_vec()];
    broken.push([&shaped.tables[..], &[0]].concat());
    for (_, damage) in DAMAGES {
        let mut damaged = shaped.clone();
        damage(&mut rng, &mut damaged);
        broken.push(damaged.tables);
    }
    broken.extend(gen::flipped_marks(&shaped).map(|lent| lent.tables));
    let is_broken = |tables: &Vec<u8>| Tables::from_raw(tables).is_none();
    broken.retain(is_broken);
    assert!(broken.len() > DAMAGES.len());
    for kernel in BOTH {
        for tables in &broken {
            for file in [&file[..], &[], &[0], &[0, 0]] {
                assert_eq!(foretold(kernel, tables, file), BROKEN);
            }
        }
    }
}

/// Figures of another length are left alone, and the number is the same.
#[test]
fn figures_of_another_length() {
    let sound = unit(LEAST_BUFFER).tables;
    for kernel in BOTH {
        for length in [0, 1, 2, FIGURES - 1, FIGURES + 1, 100] {
            for (tables, number) in [(&sound[..], 0), (&sound[..RAW - 1], 5)] {
                let mut figures = vec![LENT; length];
                let given = kernel.forecast(tables, &file_of(&CALLS), &mut figures);
                assert_eq!((given, figures), (number, vec![LENT; length]));
            }
        }
    }
}

/// Counts go on past 16 bits.
#[test]
fn many_messages() {
    let tables = unit(LEAST_BUFFER).tables;
    let file = vec![0; 2 * 70_000 + 1];
    for kernel in BOTH {
        let given = foretold(kernel, &tables, &file);
        assert_eq!(given, due(0, 0, &[(2, 70_000), (1, 1)]));
    }
}

/// The bytes laid stop at 4294967295: writes of 64 bytes to a page with eight CURRENT copies, 512
/// bytes each, of which 8,388,608 would lay 4294967296.
#[test]
fn the_bytes_laid_stop() {
    let mut lines = vec!["create 3 5".to_string()];
    lines.extend((0..ENTRIES).map(|frame| format!("copy 5 0 {frame}")));
    lines.extend((0..ENTRIES).map(|copy| format!("current 5 {copy}")));
    let lines: Vec<&str> = lines.iter().map(String::as_str).collect();
    let tables = tables_after(&lines);
    let write = [&[0, 69, 1, 5, 3, 5, 0][..], &[0x41; FRAME]].concat();
    let enough = (1 << 32) / (FRAME * ENTRIES);
    let file = write.repeat(enough + 1);
    for (writes, laid) in [
        (enough - 1, u32::MAX - 511),
        (enough, u32::MAX),
        (enough + 1, u32::MAX),
    ] {
        let given = foretold(&Embedded, &tables, &file[..writes * write.len()]);
        assert_eq!(given, due(8, laid, &[(0, writes as u32)]));
    }
}
