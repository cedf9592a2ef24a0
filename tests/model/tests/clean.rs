//! "Cards leave the mill clean", request [2] of document 02, over whole call files from fresh tables,
//! on the kernel and on the model: what is in the frames that no copy has at the end.

use ::model::clean::Clean;
use ::model::gen::{self, Moves, Rng};
use ::model::kernel::{Embedded, Kernel, Modelled};
use ::model::model::{Call, Lent, Tables};

const BOTH: [&dyn Kernel; 2] = [&Modelled, &Embedded];
const RUNS: u64 = 200;
const MESSAGES: usize = 300;

fn tables_of(lent: &Lent) -> Tables {
    Tables::from_raw(&lent.tables).expect("a run keeps the rules")
}

/// Gives the kernel a generated call file, message by message; what it left, and the frames that
/// were held on the way.
fn shift(kernel: &dyn Kernel, rng: &mut Rng, mut lent: Lent) -> (Lent, Clean) {
    let mut clean = Clean::start(&lent);
    let mut moves = Moves::new(rng);
    for _ in 0..MESSAGES {
        let message = moves.next(rng, &tables_of(&lent), &lent, false);
        kernel.answer(&mut lent, &message);
        clean.turn(&tables_of(&lent));
    }
    (lent, clean)
}

/// Deletes every page that stands, each by its owner; the bytes laid.
fn delete_all(kernel: &dyn Kernel, lent: &mut Lent) -> usize {
    let pages = tables_of(lent).pages;
    let standing = (0..).zip(&pages).filter_map(|(number, page)| {
        let station = page.as_ref()?.owner;
        let page = number;
        Some(Call::DeletePage { station, page })
    });
    let answers = standing.map(|call| {
        let answer = kernel.answer(lent, &call.encode());
        assert_eq!(answer % 256, 0, "{call:?}");
        answer as usize / 65536
    });
    answers.sum()
}

/// The stores begin with random bytes. At the end each frame without a copy that was held at any
/// time holds 64 zeros, and each that was never held its first bytes.
#[test]
fn free_frames_hold_zeros_or_their_first_bytes() {
    for kernel in BOTH {
        for seed in 0..RUNS {
            let rng = &mut Rng::new(seed);
            let start = gen::fresh(rng);
            let (lent, clean) = shift(kernel, rng, start);
            let end = clean.end(&tables_of(&lent), &lent.fast, &lent.slow);
            assert_eq!(end, Ok(()), "seed {seed}");
        }
    }
}

/// The same, after which every page is deleted: no copy has a frame, and 64 bytes are laid for each
/// that one had.
#[test]
fn every_page_deleted_leaves_no_byte_of_any() {
    for kernel in BOTH {
        for seed in 0..RUNS {
            let rng = &mut Rng::new(seed);
            let start = gen::fresh(rng);
            let (mut lent, clean) = shift(kernel, rng, start);
            let tables = tables_of(&lent);
            let due = 64 * tables.held();
            assert_eq!(delete_all(kernel, &mut lent), due, "seed {seed}");
            let fresh = Tables::fresh(tables.fast, tables.slow);
            let retired = tables.retired;
            let tables = tables_of(&lent);
            assert_eq!(tables, Tables { retired, ..fresh });
            let end = clean.end(&tables, &lent.fast, &lent.slow);
            assert_eq!(end, Ok(()), "seed {seed}");
        }
    }
}

/// The card, the slow store, begins as zeros. At the end each of its frames without a copy is zeros,
/// and once every page is deleted the whole card is. The fast store's bytes are random.
#[test]
fn a_card_of_zeros_leaves_as_zeros() {
    for kernel in BOTH {
        for seed in 0..RUNS {
            let rng = &mut Rng::new(seed);
            let mut start = gen::fresh(rng);
            start.slow.fill(0);
            let (mut lent, _) = shift(kernel, rng, start);
            let tables = tables_of(&lent);
            for (frame, held) in (tables.fast..).zip(lent.slow.chunks(64)) {
                let is_zeros = held.iter().all(|&byte| byte == 0);
                assert!(is_zeros || tables.is_held(frame), "seed {seed}, {frame}");
            }
            delete_all(kernel, &mut lent);
            assert!(lent.slow.iter().all(|&byte| byte == 0), "seed {seed}");
        }
    }
}
