//! The kernel's program beside the model's: the same replies to the same input, however the input
//! and the output are cut into pieces. PROGRAM names the program; without it nothing is tried.

use ::model::cases::bytes;
use ::model::gen::{self, Moves, Rng};
use ::model::model::{answer, program, Lent, Reader, Tables, FRAME, PROGRAM_INPUT};
use std::io::{Read, Write};
use std::process::{Command, Stdio};
use std::thread;

/// What the program writes for an input that comes in pieces, read in pieces too.
fn served(path: &str, input: &[u8], piece: usize) -> Vec<u8> {
    let mut child = Command::new(path)
        .stdin(Stdio::piped())
        .stdout(Stdio::piped())
        .spawn()
        .expect("PROGRAM starts");
    let mut to = child.stdin.take().expect("its input");
    let mut from = child.stdout.take().expect("its output");
    let input = input.to_vec();
    let feeding = thread::spawn(move || {
        for part in input.chunks(piece) {
            // The program stops reading after 60000 bytes.
            if to.write_all(part).and_then(|()| to.flush()).is_err() {
                break;
            }
        }
    });
    let (mut output, mut part) = (Vec::new(), vec![0; piece]);
    loop {
        let got = from.read(&mut part).expect("its output is read");
        if got == 0 {
            break;
        }
        output.extend(&part[..got]);
    }
    feeding.join().expect("all is fed");
    assert!(child.wait().expect("it ends").success());
    output
}

/// A call file of sensible, broken and nonsensical messages for the program's four and four frames.
fn calls(seed: u64, length: usize) -> Vec<u8> {
    let mut rng = Rng::new(seed);
    let mut moves = Moves::new(&mut rng);
    let mut lent = Lent {
        tables: Tables::fresh(4, 4).to_raw(),
        fast: vec![0; 4 * FRAME],
        slow: vec![0; 4 * FRAME],
        out: vec![0; 70],
    };
    let mut file = Vec::new();
    while file.len() < length {
        let next = if rng.once_in(9) {
            gen::nonsense(&mut rng)
        } else {
            let tables = Tables::from_raw(&lent.tables).expect("a run keeps the rules");
            moves.next(&mut rng, &tables, &lent, false)
        };
        // A message that is cut short would end the file here.
        let messages: Vec<_> = Reader::new(&next).collect();
        if let [message] = messages[..] {
            if answer(&mut lent, message).number != 1 {
                file.extend(next);
            }
        }
    }
    file
}

/// The program's replies to an input that comes in such pieces are the model's.
fn check(input: &[u8], piece: usize) {
    let Ok(path) = std::env::var("PROGRAM") else {
        return;
    };
    let (given, due) = (served(&path, input, piece), program(input));
    // Half a megabyte is not worth printing.
    let same = given.iter().zip(&due).take_while(|(g, d)| g == d).count();
    assert!(
        given == due,
        "an input of {} bytes in pieces of {piece}: {} bytes of replies, by the model {}, \
         the first {same} alike",
        input.len(),
        given.len(),
        due.len()
    );
}

#[test]
fn the_program_writes_what_the_model_writes() {
    let worked = include_bytes!("../../../crates/program/stdin");
    for end in 0..=worked.len() {
        check(&worked[..end], 1 + end % 5);
    }
    for seed in 1..=20 {
        check(&calls(seed, 3000), 1 + 400 * (seed as usize % 4));
    }
    let long = calls(21, PROGRAM_INPUT + 5000);
    for end in [
        PROGRAM_INPUT - 1,
        PROGRAM_INPUT,
        PROGRAM_INPUT + 1,
        long.len(),
    ] {
        check(&long[..end], 4096);
    }
}

/// The longest replies that the input can bring, and inputs about them: no message of 8 bytes or
/// less has a longer reply than a read of 64 bytes.
#[test]
fn the_most_replies() {
    let read = bytes("read 3 5 0 64");
    let setup = ["create 3 5", "copy 5 0 0", "current 5 0"]
        .map(bytes)
        .concat();
    let look = bytes("look-page 5");
    let reads = (PROGRAM_INPUT - setup.len()) / read.len();
    let most = [setup, read.repeat(reads), look].concat();
    assert_eq!(most.len(), PROGRAM_INPUT);
    assert_eq!(program(&most).len(), 3 * 6 + 70 * 7497 + 10);
    for piece in [70, 4096, PROGRAM_INPUT] {
        check(&most, piece);
    }
    // The last read is cut short by the end of what is taken.
    let moved = [&read[..], &most].concat();
    for end in PROGRAM_INPUT - 1..PROGRAM_INPUT + 9 {
        check(&moved[..end], 4096);
    }
    // 7,500 reads and no page.
    check(&read.repeat(PROGRAM_INPUT / read.len()), 4096);
}

/// As many messages as the input can hold, and one that is cut short behind them.
#[test]
fn the_most_messages() {
    let most = [0, 0].repeat(PROGRAM_INPUT / 2);
    assert_eq!(program(&most).len(), 6 * 30_000);
    for piece in [500, 4096, PROGRAM_INPUT] {
        check(&most, piece);
    }
    for end in [PROGRAM_INPUT - 3, PROGRAM_INPUT - 2, PROGRAM_INPUT - 1] {
        check(&most[..end], 4096);
    }
    for more in [1, 2, 3, PROGRAM_INPUT] {
        check(&[&most[..], &vec![0; more]].concat(), 4096);
    }
}
