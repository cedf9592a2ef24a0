//! The cases of document 01 as call files, each with the whole list of its replies: the worked example, the starred
//! cases on its end state, for each trap and impostor a file whose replies it gets wrong, and borders that these leave
//! out. Station 4's read among the starred cases is accepted, as request [6] of document 02 has it. Then the pairs of
//! right and act of its request [3], the rights of new pages of its request [6] and the pairs of files of its request
//! [7], the pages that are closed by grants of right 0, the deletes of its request [2] and the retired frames of its
//! request [5], the last three each also with the bytes that it leaves in the stores. Last the calls and the replies of
//! its request [4]: the worked example's, and such as are refused or just not.

use crate::kernel::Kernel;
use crate::model::{frame_bytes, Lent, Reader, Tables, Tally, FRAME, LEAST_BUFFER, PROGRAM_FRAMES};
use crate::stations::{Sent, Told};
use reel::lines;

/// A call file that goes on from the worked example.
pub struct Case {
    /// The case in words; for a trap or an impostor the name of the wrong kernel.
    pub name: &'static str,
    /// Its calls, as lines of the tool `reel`.
    pub calls: &'static [&'static str],
    /// Their replies, in hexadecimal.
    pub replies: &'static [&'static str],
}

/// The 64 bytes of a whole page.
macro_rules! whole_page {
    () => {
        "40 41 42 43 44 45 46 47 48 49 4A 4B 4C 4D 4E 4F \
         50 51 52 53 54 55 56 57 58 59 5A 5B 5C 5D 5E 5F \
         60 61 62 63 64 65 66 67 68 69 6A 6B 6C 6D 6E 6F \
         70 71 72 73 74 75 76 77 78 79 7A 7B 7C 7D 7E 7F"
    };
}

/// The calls of the worked example, and their replies.
pub const CALLS: [&str; 6] = [
    "create 3 5",
    "copy 5 0 0",
    "current 5 0",
    "write 3 5 0 41 37",
    "read 3 5 0 3",
    "look-page 5",
];
pub const REPLIES: [&str; 6] = [
    DONE,
    ONE_FRAME,
    DONE,
    "00 04 01 00 00 02",
    "00 07 01 00 00 00 41 37 00",
    "00 08 01 00 00 00 01 00 01 01",
];

/// Accepted, nothing laid and nothing told.
const DONE: &str = "00 04 01 00 00 00";
/// Accepted, 64 bytes laid: a frame copied to, or freed and filled with zeros.
const ONE_FRAME: &str = "00 04 01 00 00 40";
/// An accepted read of the worked example's first two bytes.
const EXAMPLE_BYTES: &str = "00 06 01 00 00 00 41 37";

pub const STARRED: [Case; 11] = [
    Case {
        name: "read offset 63 count 1 gives 00",
        calls: &["read 3 5 63 1"],
        replies: &["00 05 01 00 00 00 00"],
    },
    Case {
        name: "count 2 there: 7",
        calls: &["read 3 5 63 2"],
        replies: &["00 04 01 07 00 00"],
    },
    Case {
        name: "frame 7 copied to: accepted",
        calls: &["copy 5 0 7"],
        replies: &[ONE_FRAME],
    },
    Case {
        name: "frame 8: 7",
        calls: &["copy 5 0 8"],
        replies: &["00 04 01 07 00 00"],
    },
    Case {
        name: "frame 0: 13",
        calls: &["copy 5 0 0"],
        replies: &["00 04 01 0D 00 00"],
    },
    Case {
        name: "delete copy 0: 15",
        calls: &["delete-copy 5 0"],
        replies: &["00 04 01 0F 00 00"],
    },
    Case {
        name: "station 4 reads: accepted since request [6], 10 before it",
        calls: &["read 4 5 0 1"],
        replies: &["00 05 01 00 00 00 41"],
    },
    Case {
        name: "create page 5: 8",
        calls: &["create 3 5"],
        replies: &["00 04 01 08 00 00"],
    },
    Case {
        name: "copy 1 made, then a write: set current 1 gives 16",
        calls: &["copy 5 0 1", "write 3 5 0 01", "current 5 1"],
        replies: &[ONE_FRAME, "00 04 01 00 00 01", "00 04 01 10 00 00"],
    },
    Case {
        name: "remove current 0, then read: 11",
        calls: &["remove-current 5 0", "read 3 5 0 1"],
        replies: &[DONE, "00 04 01 0B 00 00"],
    },
    Case {
        name: "page 6 created, set current 0: 17",
        calls: &["create 3 6", "current 6 0"],
        replies: &[DONE, "00 04 01 11 00 00"],
    },
];

/// For each trap and each impostor a file that exposes it.
pub const EXPOSING: [Case; 13] = [
    // The traps.
    Case {
        name: "a new copy takes its source's CURRENT mark",
        calls: &["copy 5 0 6", "look-page 5"],
        replies: &[ONE_FRAME, "00 0B 01 00 00 00 02 00 01 01 06 00 01"],
    },
    Case {
        name: "stale marks spared when equal bytes are written",
        calls: &[
            "copy 5 0 6",
            "write 3 5 0 41 37",
            "look-page 5",
            "current 5 1",
        ],
        replies: &[
            ONE_FRAME,
            "00 04 01 00 00 02",
            "00 0B 01 00 00 00 02 00 01 01 06 00 00",
            "00 04 01 10 00 00",
        ],
    },
    Case {
        name: "one current copy of two written",
        calls: &[
            "copy 5 0 6",
            "current 5 1",
            "write 3 5 1 09 08 07",
            "remove-current 5 0",
            "read 3 5 0 5",
        ],
        replies: &[
            ONE_FRAME,
            DONE,
            "00 04 01 00 00 06",
            DONE,
            "00 09 01 00 00 00 41 09 08 07 00",
        ],
    },
    Case {
        name: "last current spared for last recent",
        calls: &["copy 5 0 6", "delete-copy 5 0", "look-page 5"],
        replies: &[ONE_FRAME, ONE_FRAME, "00 08 01 00 00 00 01 06 00 01"],
    },
    Case {
        name: "last recent deleted where it is not current",
        calls: &[
            "copy 5 0 6",
            "write 3 5 0 01",
            "remove-current 5 0",
            "delete-copy 5 0",
            "delete-copy 5 1",
        ],
        replies: &[
            ONE_FRAME,
            "00 04 01 00 00 01",
            DONE,
            "00 04 01 0F 00 00",
            ONE_FRAME,
        ],
    },
    Case {
        name: "a free frame's old bytes taken for zeros",
        // A frame that no copy ever had: a freed one is filled with zeros.
        calls: &["create 2 9", "copy 9 0 1", "current 9 0", "read 2 9 0 3"],
        replies: &[DONE, ONE_FRAME, DONE, "00 07 01 00 00 00 00 00 00"],
    },
    // The impostors.
    Case {
        name: "nothing current before looking",
        calls: &["read 3 5 1 1"],
        replies: &["00 05 01 00 00 00 37"],
    },
    Case {
        name: "refuses all",
        calls: &["create 3 6"],
        replies: &[DONE],
    },
    Case {
        name: "a constant reply",
        calls: &["look-frame 0", "look-frame 1"],
        replies: &["00 07 01 00 00 00 01 05 00", "00 07 01 00 00 00 00 FF FF"],
    },
    Case {
        name: "drops moves",
        calls: &["copy 5 0 6", "current 5 1"],
        replies: &[ONE_FRAME, DONE],
    },
    Case {
        name: "serves the first message and then only acknowledges",
        calls: &["create 3 6", "look-page 6"],
        replies: &[DONE, "00 08 01 00 00 00 01 FF 00 01"],
    },
    Case {
        name: "invents bytes laid",
        calls: &["copy 5 0 6"],
        replies: &[ONE_FRAME],
    },
    Case {
        name: "a reader that reports the end too early",
        calls: &["read 3 5 0 1", "raw 00 00"],
        replies: &["00 05 01 00 00 00 41", "00 04 01 02 00 00"],
    },
];

const NO_RIGHT: &str = "00 04 01 0A 00 00";
const STANDS: &str = "00 04 01 08 00 00";

/// "Rights: 0 none, 1 read, 2 read and write": for each pair of right and act a file, and the name
/// of the wrong kernel that it exposes.
pub const PAIRS: [Case; 6] = [
    Case {
        name: "a read with right 0 accepted",
        calls: &["grant 3 5 4 0", "read 4 5 0 2"],
        replies: &[DONE, NO_RIGHT],
    },
    Case {
        name: "a write with right 0 accepted",
        calls: &["grant 3 5 4 0", "write 4 5 0 01"],
        replies: &[DONE, NO_RIGHT],
    },
    Case {
        name: "a read with right 1 refused",
        calls: &["grant 3 5 4 1", "read 4 5 0 2"],
        replies: &[DONE, EXAMPLE_BYTES],
    },
    Case {
        name: "a write with right 1 accepted",
        calls: &["grant 3 5 4 1", "write 4 5 0 01"],
        replies: &[DONE, NO_RIGHT],
    },
    Case {
        name: "a read with right 2 refused",
        calls: &["grant 3 5 4 2", "read 4 5 0 2"],
        replies: &[DONE, EXAMPLE_BYTES],
    },
    Case {
        name: "a write with right 2 refused",
        calls: &["grant 3 5 4 2", "write 4 5 0 01"],
        replies: &[DONE, "00 04 01 00 00 01"],
    },
];

/// "Create now gives right 1 to every station but the owner", request [6] of document 02: for each
/// wrong create a file, and the name of the wrong kernel that it exposes.
pub const CREATES: [Case; 9] = [
    Case {
        name: "the owner of a new page gets right 1",
        calls: &[
            "create 4 6",
            "copy 6 0 1",
            "current 6 0",
            "write 4 6 0 55",
            "read 4 6 0 2",
        ],
        replies: &[
            DONE,
            ONE_FRAME,
            DONE,
            "00 04 01 00 00 01",
            "00 06 01 00 00 00 55 00",
        ],
    },
    Case {
        name: "the last station left with right 0 on a new page",
        calls: &["read 15 5 0 2"],
        replies: &[EXAMPLE_BYTES],
    },
    Case {
        name: "a station in the middle left with right 0 on a new page",
        calls: &["read 8 5 0 2"],
        replies: &[EXAMPLE_BYTES],
    },
    Case {
        name: "the first station left with right 0 on a new page",
        calls: &["read 0 5 0 2"],
        replies: &[EXAMPLE_BYTES],
    },
    Case {
        name: "every station gets right 2 on a new page",
        calls: &["write 4 5 0 01"],
        replies: &[NO_RIGHT],
    },
    Case {
        name: "the others get right 0 on a new page, as document 01 had it",
        calls: &["read 4 5 0 2"],
        replies: &[EXAMPLE_BYTES],
    },
    Case {
        name: "a create that is refused opens the page",
        calls: &["grant 3 5 4 0", "create 3 5", "read 4 5 0 2"],
        replies: &[DONE, STANDS, NO_RIGHT],
    },
    Case {
        name: "a create that is refused opens the page to its station",
        calls: &["grant 3 5 4 0", "create 4 5", "read 4 5 0 2"],
        replies: &[DONE, STANDS, NO_RIGHT],
    },
    Case {
        name: "a grant of right 0 to the last station lost",
        calls: &["grant 3 5 15 0", "read 15 5 0 2"],
        replies: &[DONE, NO_RIGHT],
    },
];

/// "Contents stay hidden from placement", request [7] of document 02: two files of the same
/// messages whose writes carry other bytes, and the name of the wrong kernel that such a pair
/// exposes. Only the data of reads differ.
pub const HIDDEN: [[Case; 2]; 7] = [
    [
        Case {
            name: "stale marks spared when equal bytes are written",
            calls: &[
                "copy 5 0 6",
                "write 3 5 0 41 37",
                "look-page 5",
                "current 5 1",
                "read 3 5 0 2",
            ],
            replies: &[ONE_FRAME, TWO_BYTES, SECOND_STALE, STALE, EXAMPLE_BYTES],
        },
        Case {
            name: "the same with other bytes",
            calls: &[
                "copy 5 0 6",
                "write 3 5 0 42 38",
                "look-page 5",
                "current 5 1",
                "read 3 5 0 2",
            ],
            replies: &[
                ONE_FRAME,
                TWO_BYTES,
                SECOND_STALE,
                STALE,
                "00 06 01 00 00 00 42 38",
            ],
        },
    ],
    [
        Case {
            name: "a copy of zeros lays nothing",
            calls: &["write 3 5 0 00 00", "copy 5 0 6", "read 3 5 0 2"],
            replies: &[TWO_BYTES, ONE_FRAME, "00 06 01 00 00 00 00 00"],
        },
        Case {
            name: "a copy of a page that is not zeros",
            calls: &["write 3 5 0 00 01", "copy 5 0 6", "read 3 5 0 2"],
            replies: &[TWO_BYTES, ONE_FRAME, "00 06 01 00 00 00 00 01"],
        },
    ],
    [
        Case {
            name: "a frame that was all zeros not counted",
            calls: &[
                "write 3 5 0 00 00",
                "copy 5 0 6",
                "delete-copy 5 1",
                "delete-page 3 5",
            ],
            replies: &[TWO_BYTES, ONE_FRAME, ONE_FRAME, ONE_FRAME],
        },
        Case {
            name: "frames that were not zeros",
            calls: &[
                "write 3 5 0 00 01",
                "copy 5 0 6",
                "delete-copy 5 1",
                "delete-page 3 5",
            ],
            replies: &[TWO_BYTES, ONE_FRAME, ONE_FRAME, ONE_FRAME],
        },
    ],
    [
        Case {
            name: "a stale copy with the CURRENT copy's bytes shown as MOST RECENT",
            calls: &["copy 5 0 6", "write 3 5 1 37", "look-page 5"],
            replies: &[ONE_FRAME, "00 04 01 00 00 01", SECOND_STALE],
        },
        Case {
            name: "a stale copy with other bytes",
            calls: &["copy 5 0 6", "write 3 5 1 38", "look-page 5"],
            replies: &[ONE_FRAME, "00 04 01 00 00 01", SECOND_STALE],
        },
    ],
    [
        Case {
            name: "a tally of the bytes that change",
            calls: &["write 3 5 0 41 37"],
            replies: &[TWO_BYTES],
        },
        Case {
            name: "a write that changes one of two bytes",
            calls: &["write 3 5 0 41 38"],
            replies: &[TWO_BYTES],
        },
    ],
    [
        Case {
            name: "a byte of a write refused 10 told in its reply",
            calls: &["write 4 5 0 01 02 03"],
            replies: &[NO_RIGHT],
        },
        Case {
            name: "the same write with other bytes",
            calls: &["write 4 5 0 04 05 06"],
            replies: &[NO_RIGHT],
        },
    ],
    [
        Case {
            name: "a byte of a write refused 4 told in its reply",
            calls: &[
                concat!("raw 00 46 01 05 03 05 00 80 ", whole_page!()),
                "raw 00 08 01 05 03 05 00 01",
            ],
            replies: &[WRONG_LENGTH, CUT],
        },
        Case {
            name: "a write too long by a byte, and one cut short, with other bytes",
            calls: &[
                concat!("raw 00 46 01 05 03 05 00 81 ", whole_page!()),
                "raw 00 08 01 05 03 05 00 02",
            ],
            replies: &[WRONG_LENGTH, CUT],
        },
    ],
];

/// Accepted, two bytes laid.
const TWO_BYTES: &str = "00 04 01 00 00 02";
/// A look at page 5 with a CURRENT copy on frame 0 and a stale one on frame 6.
const SECOND_STALE: &str = "00 0B 01 00 00 00 02 00 01 01 06 00 00";
const STALE: &str = "00 04 01 10 00 00";
const WRONG_LENGTH: &str = "00 04 01 04 00 00";
const CUT: &str = "00 04 01 01 00 00";

/// Borders that the starred cases leave out: accepted without change, and for each two numbers that
/// can both apply which comes first. The page of the worked example is page 5, of station 3.
pub const BORDERS: [Case; 18] = [
    Case {
        name: "look at a held frame: 1, page, copy",
        calls: &["copy 5 0 6", "look-frame 0", "look-frame 6"],
        replies: &[
            ONE_FRAME,
            "00 07 01 00 00 00 01 05 00",
            "00 07 01 00 00 00 01 05 01",
        ],
    },
    Case {
        name: "set current of a current copy: accepted, no change",
        calls: &["current 5 0", "look-page 5"],
        replies: &[DONE, "00 08 01 00 00 00 01 00 01 01"],
    },
    Case {
        name: "set current of a second copy: a write lays its bytes twice",
        calls: &[
            "copy 5 0 6",
            "current 5 1",
            "write 3 5 0 01 02",
            "look-page 5",
        ],
        replies: &[
            ONE_FRAME,
            DONE,
            "00 04 01 00 00 04",
            "00 0B 01 00 00 00 02 00 01 01 06 01 01",
        ],
    },
    Case {
        name: "remove current of a copy that is not current: accepted, no change",
        calls: &["remove-current 5 0", "remove-current 5 0", "look-page 5"],
        replies: &[DONE, DONE, "00 08 01 00 00 00 01 00 00 01"],
    },
    Case {
        name: "remove current of a null copy: accepted, no change",
        calls: &["create 3 6", "remove-current 6 0", "look-page 6"],
        replies: &[DONE, DONE, "00 08 01 00 00 00 01 FF 00 01"],
    },
    Case {
        name: "2 before 3",
        calls: &["raw 00 02 02 0D", "raw 00 01 02"],
        replies: &["00 04 01 02 00 00", "00 04 01 02 00 00"],
    },
    Case {
        name: "3 before 4",
        calls: &["raw 00 02 01 0D"],
        replies: &["00 04 01 03 00 00"],
    },
    Case {
        name: "4 before 7",
        calls: &["raw 00 04 01 0A 40 40"],
        replies: &["00 04 01 04 00 00"],
    },
    Case {
        name: "7 before 8",
        calls: &["create 16 5"],
        replies: &[OUTSIDE],
    },
    Case {
        name: "7 before 9 and 12, kinds 6 to 12",
        calls: &[
            "copy 64 9 0",
            "copy 7 9 8",
            "delete-copy 64 9",
            "current 64 9",
            "remove-current 64 9",
            "look-page 64",
            "look-frame 8",
            "retire 8",
        ],
        replies: &[
            OUTSIDE, OUTSIDE, OUTSIDE, OUTSIDE, OUTSIDE, OUTSIDE, OUTSIDE, OUTSIDE,
        ],
    },
    Case {
        name: "9 before 12, 13, 15, 17 and 16",
        calls: &[
            "copy 7 9 0",
            "delete-copy 7 9",
            "current 7 9",
            "remove-current 7 9",
        ],
        replies: &[NO_PAGE, NO_PAGE, NO_PAGE, NO_PAGE],
    },
    Case {
        name: "9 before 10 and 11",
        calls: &[
            "delete-page 4 7",
            "grant 4 7 4 2",
            "read 4 7 0 1",
            "write 4 7 0 01",
        ],
        replies: &[NO_PAGE, NO_PAGE, NO_PAGE, NO_PAGE],
    },
    Case {
        name: "10 before 11",
        calls: &[
            "create 3 6",
            "read 4 6 0 1",
            "write 4 6 0 01",
            "grant 3 6 4 0",
            "read 4 6 0 1",
            "write 4 6 0 01",
        ],
        replies: &[
            DONE,
            "00 04 01 0B 00 00",
            NO_RIGHT,
            DONE,
            NO_RIGHT,
            NO_RIGHT,
        ],
    },
    Case {
        name: "12 before 13",
        calls: &["copy 5 1 0"],
        replies: &[NO_COPY],
    },
    Case {
        name: "12 before 13 and 14",
        calls: &[
            "copy 5 0 1",
            "copy 5 0 2",
            "copy 5 0 3",
            "copy 5 0 4",
            "copy 5 0 5",
            "copy 5 0 6",
            "copy 5 0 7",
            "copy 5 8 0",
        ],
        replies: &[
            ONE_FRAME, ONE_FRAME, ONE_FRAME, ONE_FRAME, ONE_FRAME, ONE_FRAME, ONE_FRAME, NO_COPY,
        ],
    },
    Case {
        name: "13 before 14",
        calls: &[
            "copy 5 0 1",
            "copy 5 0 2",
            "copy 5 0 3",
            "copy 5 0 4",
            "copy 5 0 5",
            "copy 5 0 6",
            "copy 5 0 7",
            "copy 5 0 7",
        ],
        replies: &[
            ONE_FRAME, ONE_FRAME, ONE_FRAME, ONE_FRAME, ONE_FRAME, ONE_FRAME, ONE_FRAME, HELD,
        ],
    },
    Case {
        name: "12 before 15",
        calls: &["delete-copy 5 1"],
        replies: &[NO_COPY],
    },
    Case {
        name: "12 before 17",
        calls: &["create 3 6", "current 6 1"],
        replies: &[DONE, NO_COPY],
    },
];

/// A case, and what it leaves in the stores.
pub struct StoreCase {
    pub case: Case,
    /// Of each of the program's eight frames `FIRST`, or the bytes at its front, in hexadecimal; all
    /// behind these are zeros.
    pub frames: [&'static str; 2 * PROGRAM_FRAMES as usize],
}

/// A frame that holds its first bytes, those of `unit`.
const FIRST: &str = "first";
const ZEROS: &str = "";
/// The worked example's page 5.
const PAGE: &str = "41 37";

/// As many bytes laid as a write can lay.
pub const WIDEST: StoreCase = StoreCase {
    case: Case {
        name: "64 bytes to eight CURRENT copies: 512 laid, in two bytes",
        calls: &[
            "copy 5 0 1",
            "copy 5 0 2",
            "copy 5 0 3",
            "copy 5 0 4",
            "copy 5 0 5",
            "copy 5 0 6",
            "copy 5 0 7",
            "current 5 1",
            "current 5 2",
            "current 5 3",
            "current 5 4",
            "current 5 5",
            "current 5 6",
            "current 5 7",
            concat!("write 3 5 0 ", whole_page!()),
            "read 3 5 0 64",
            "look-page 5",
        ],
        replies: &[
            ONE_FRAME,
            ONE_FRAME,
            ONE_FRAME,
            ONE_FRAME,
            ONE_FRAME,
            ONE_FRAME,
            ONE_FRAME,
            DONE,
            DONE,
            DONE,
            DONE,
            DONE,
            DONE,
            DONE,
            "00 04 01 00 02 00",
            concat!("00 44 01 00 00 00 ", whole_page!()),
            "00 1D 01 00 00 00 08 00 01 01 01 01 01 02 01 01 03 01 01 04 01 01 05 01 01 06 01 01 07 01 01",
        ],
    },
    frames: [whole_page!(); 8],
};

/// "Their stations must send fifteen grants of right 0 before the first write": pages that are
/// closed so, and new ones that are not.
#[rustfmt::skip]
pub const CLOSINGS: [StoreCase; 3] = [
    StoreCase {
        case: Case {
            name: "created and closed beside other pages: its owner alone reads it",
            calls: &[
                "create 2 9",
                "create 7 6", "grant 7 6 0 0", "grant 7 6 1 0", "grant 7 6 2 0", "grant 7 6 3 0",
                "grant 7 6 4 0", "grant 7 6 5 0", "grant 7 6 6 0", "grant 7 6 8 0", "grant 7 6 9 0",
                "grant 7 6 10 0", "grant 7 6 11 0", "grant 7 6 12 0", "grant 7 6 13 0",
                "grant 7 6 14 0", "grant 7 6 15 0",
                "look-page 6", "copy 6 0 1", "current 6 0",
                "write 7 6 0 55", "read 7 6 0 2",
                "read 0 6 0 2", "read 1 6 0 2", "read 2 6 0 2", "read 3 6 0 2", "read 4 6 0 2",
                "read 5 6 0 2", "read 6 6 0 2", "read 8 6 0 2", "read 9 6 0 2", "read 10 6 0 2",
                "read 11 6 0 2", "read 12 6 0 2", "read 13 6 0 2", "read 14 6 0 2", "read 15 6 0 2",
                "read 4 5 0 2", "look-page 5", "look-page 9",
            ],
            replies: &[
                DONE,
                DONE, DONE, DONE, DONE, DONE, DONE, DONE, DONE, DONE, DONE, DONE, DONE, DONE, DONE,
                DONE, DONE,
                "00 08 01 00 00 00 01 FF 00 01", ONE_FRAME, DONE,
                "00 04 01 00 00 01", "00 06 01 00 00 00 55 00",
                NO_RIGHT, NO_RIGHT, NO_RIGHT, NO_RIGHT, NO_RIGHT, NO_RIGHT, NO_RIGHT, NO_RIGHT,
                NO_RIGHT, NO_RIGHT, NO_RIGHT, NO_RIGHT, NO_RIGHT, NO_RIGHT, NO_RIGHT,
                EXAMPLE_BYTES, "00 08 01 00 00 00 01 00 01 01", "00 08 01 00 00 00 01 FF 00 01",
            ],
        },
        frames: [PAGE, "55", FIRST, FIRST, FIRST, FIRST, FIRST, FIRST],
    },
    StoreCase {
        case: Case {
            name: "new pages: the first and the last of the others read them and do not write them",
            calls: &[
                "read 0 5 0 2", "read 15 5 0 2", "write 0 5 0 01", "write 15 5 0 01",
                "create 15 6", "copy 6 0 7", "current 6 0", "write 15 6 0 01",
                "read 0 6 0 1", "read 14 6 0 1",
                "write 0 6 0 02", "write 14 6 0 02",
            ],
            replies: &[
                EXAMPLE_BYTES, EXAMPLE_BYTES, NO_RIGHT, NO_RIGHT,
                DONE, ONE_FRAME, DONE, "00 04 01 00 00 01",
                "00 05 01 00 00 00 01", "00 05 01 00 00 00 01",
                NO_RIGHT, NO_RIGHT,
            ],
        },
        frames: [PAGE, FIRST, FIRST, FIRST, FIRST, FIRST, FIRST, "01"],
    },
    StoreCase {
        case: Case {
            name: "create on a closed page: 8, and it stays closed until it is deleted",
            calls: &[
                "grant 3 5 0 0", "grant 3 5 1 0", "grant 3 5 2 0", "grant 3 5 4 0", "grant 3 5 5 0",
                "grant 3 5 6 0", "grant 3 5 7 0", "grant 3 5 8 0", "grant 3 5 9 0",
                "grant 3 5 10 0", "grant 3 5 11 0", "grant 3 5 12 0", "grant 3 5 13 0",
                "grant 3 5 14 0", "grant 3 5 15 0",
                "create 3 5", "create 15 5",
                "read 0 5 0 1", "read 15 5 0 1", "write 15 5 0 01", "read 3 5 0 2",
                "delete-page 3 5", "create 3 5", "copy 5 0 0", "current 5 0", "read 15 5 0 1",
            ],
            replies: &[
                DONE, DONE, DONE, DONE, DONE, DONE, DONE, DONE, DONE, DONE, DONE, DONE, DONE, DONE,
                DONE,
                STANDS, STANDS,
                NO_RIGHT, NO_RIGHT, NO_RIGHT, EXAMPLE_BYTES,
                ONE_FRAME, DONE, ONE_FRAME, DONE, "00 05 01 00 00 00 00",
            ],
        },
        frames: [ZEROS, FIRST, FIRST, FIRST, FIRST, FIRST, FIRST, FIRST],
    },
];

pub const DELETES: [StoreCase; 13] = [
    StoreCase {
        case: Case {
            name: "delete copy, fast: 64 zeros, 64 laid",
            calls: &["copy 5 0 6", "delete-copy 5 0"],
            replies: &[ONE_FRAME, ONE_FRAME],
        },
        frames: [ZEROS, FIRST, FIRST, FIRST, FIRST, FIRST, PAGE, FIRST],
    },
    StoreCase {
        case: Case {
            name: "delete copy, slow: 64 zeros, 64 laid",
            calls: &["copy 5 0 6", "delete-copy 5 1"],
            replies: &[ONE_FRAME, ONE_FRAME],
        },
        frames: [PAGE, FIRST, FIRST, FIRST, FIRST, FIRST, ZEROS, FIRST],
    },
    StoreCase {
        case: Case {
            name: "delete copy of a stale copy: the copy that closes the gap keeps its bytes",
            calls: &[
                "copy 5 0 6",
                "write 3 5 0 55",
                "copy 5 0 2",
                "delete-copy 5 1",
                "look-page 5",
            ],
            replies: &[
                ONE_FRAME,
                "00 04 01 00 00 01",
                ONE_FRAME,
                ONE_FRAME,
                "00 0B 01 00 00 00 02 00 01 01 02 00 01",
            ],
        },
        frames: ["55 37", FIRST, "55 37", FIRST, FIRST, FIRST, ZEROS, FIRST],
    },
    StoreCase {
        case: Case {
            name: "delete copy of a frame that is all zeros already: 64 laid",
            calls: &["create 3 6", "copy 6 0 1", "copy 6 0 5", "delete-copy 6 0"],
            replies: &[DONE, ONE_FRAME, ONE_FRAME, ONE_FRAME],
        },
        frames: [PAGE, ZEROS, FIRST, FIRST, FIRST, ZEROS, FIRST, FIRST],
    },
    StoreCase {
        case: Case {
            name: "delete page with one copy: 64 zeros, 64 laid",
            calls: &["delete-page 3 5"],
            replies: &[ONE_FRAME],
        },
        frames: [ZEROS, FIRST, FIRST, FIRST, FIRST, FIRST, FIRST, FIRST],
    },
    StoreCase {
        case: Case {
            name: "delete page with three copies, one stale, in both stores: 192 laid",
            calls: &[
                "copy 5 0 6",
                "write 3 5 0 55",
                "copy 5 0 1",
                "delete-page 3 5",
            ],
            replies: &[
                ONE_FRAME,
                "00 04 01 00 00 01",
                ONE_FRAME,
                "00 04 01 00 00 C0",
            ],
        },
        frames: [ZEROS, ZEROS, FIRST, FIRST, FIRST, FIRST, ZEROS, FIRST],
    },
    StoreCase {
        case: Case {
            name: "delete page with eight copies: 512 laid, in two bytes",
            calls: &[
                "copy 5 0 1",
                "copy 5 0 2",
                "copy 5 0 3",
                "copy 5 0 4",
                "copy 5 0 5",
                "copy 5 0 6",
                "copy 5 0 7",
                "delete-page 3 5",
            ],
            replies: &[
                ONE_FRAME,
                ONE_FRAME,
                ONE_FRAME,
                ONE_FRAME,
                ONE_FRAME,
                ONE_FRAME,
                ONE_FRAME,
                "00 04 01 00 02 00",
            ],
        },
        frames: [ZEROS; 8],
    },
    StoreCase {
        case: Case {
            name: "delete page with a null copy: nothing laid",
            calls: &["create 2 9", "delete-page 2 9"],
            replies: &[DONE, DONE],
        },
        frames: [PAGE, FIRST, FIRST, FIRST, FIRST, FIRST, FIRST, FIRST],
    },
    StoreCase {
        case: Case {
            name: "a freed frame used anew and freed again",
            calls: &[
                "copy 5 0 6",
                "delete-copy 5 1",
                "create 2 9",
                "copy 9 0 6",
                "current 9 0",
                "write 2 9 63 77",
                "read 2 9 62 2",
                "delete-page 2 9",
            ],
            replies: &[
                ONE_FRAME,
                ONE_FRAME,
                DONE,
                ONE_FRAME,
                DONE,
                "00 04 01 00 00 01",
                "00 06 01 00 00 00 00 77",
                ONE_FRAME,
            ],
        },
        frames: [PAGE, FIRST, FIRST, FIRST, FIRST, FIRST, ZEROS, FIRST],
    },
    StoreCase {
        case: Case {
            name: "delete copy refused 15: no zeros",
            calls: &["delete-copy 5 0"],
            replies: &["00 04 01 0F 00 00"],
        },
        frames: [PAGE, FIRST, FIRST, FIRST, FIRST, FIRST, FIRST, FIRST],
    },
    StoreCase {
        case: Case {
            name: "delete copy of a null copy refused 15: no zeros",
            calls: &["create 2 9", "delete-copy 9 0"],
            replies: &[DONE, "00 04 01 0F 00 00"],
        },
        frames: [PAGE, FIRST, FIRST, FIRST, FIRST, FIRST, FIRST, FIRST],
    },
    StoreCase {
        case: Case {
            name: "delete page refused 10: no zeros",
            calls: &["copy 5 0 6", "delete-page 4 5"],
            replies: &[ONE_FRAME, "00 04 01 0A 00 00"],
        },
        frames: [PAGE, FIRST, FIRST, FIRST, FIRST, FIRST, PAGE, FIRST],
    },
    StoreCase {
        case: Case {
            name: "deletes refused 7, 9 and 12: no zeros",
            calls: &[
                "delete-page 16 5",
                "delete-page 3 64",
                "delete-copy 64 0",
                "delete-page 3 6",
                "delete-copy 6 0",
                "delete-copy 5 1",
            ],
            replies: &[
                "00 04 01 07 00 00",
                "00 04 01 07 00 00",
                "00 04 01 07 00 00",
                "00 04 01 09 00 00",
                "00 04 01 09 00 00",
                "00 04 01 0C 00 00",
            ],
        },
        frames: [PAGE, FIRST, FIRST, FIRST, FIRST, FIRST, FIRST, FIRST],
    },
];

/// A look at a free frame, and one at a retired frame.
const FREE: &str = "00 07 01 00 00 00 00 FF FF";
const WORN: &str = "00 07 01 00 00 00 02 FF FF";
const OUTSIDE: &str = "00 04 01 07 00 00";
const HELD: &str = "00 04 01 0D 00 00";
const RETIRED: &str = "00 04 01 14 00 00";
const NO_PAGE: &str = "00 04 01 09 00 00";
const NO_COPY: &str = "00 04 01 0C 00 00";

pub const RETIRES: [StoreCase; 12] = [
    StoreCase {
        case: Case {
            name: "a free frame, fast or slow: nothing laid, shown as 2, 255, 255, its bytes stay",
            calls: &[
                "retire 1",
                "retire 6",
                "look-frame 1",
                "look-frame 6",
                "look-frame 2",
            ],
            replies: &[DONE, DONE, WORN, WORN, FREE],
        },
        frames: [PAGE, FIRST, FIRST, FIRST, FIRST, FIRST, FIRST, FIRST],
    },
    StoreCase {
        case: Case {
            name: "the last frame retired; the next one, 253, 254 and 255: 7",
            calls: &[
                "retire 7",
                "retire 8",
                "retire 253",
                "retire 254",
                "retire 255",
                "look-frame 7",
            ],
            replies: &[DONE, OUTSIDE, OUTSIDE, OUTSIDE, OUTSIDE, WORN],
        },
        frames: [PAGE, FIRST, FIRST, FIRST, FIRST, FIRST, FIRST, FIRST],
    },
    StoreCase {
        case: Case {
            name: "a held frame: 13",
            calls: &["retire 0", "look-frame 0", "copy 5 0 6", "retire 6"],
            replies: &[HELD, "00 07 01 00 00 00 01 05 00", ONE_FRAME, HELD],
        },
        frames: [PAGE, FIRST, FIRST, FIRST, FIRST, FIRST, PAGE, FIRST],
    },
    StoreCase {
        case: Case {
            name: "a retired frame again: accepted without change",
            calls: &[
                "retire 3",
                "retire 3",
                "look-frame 3",
                "retire 3",
                "look-frame 3",
            ],
            replies: &[DONE, DONE, WORN, DONE, WORN],
        },
        frames: [PAGE, FIRST, FIRST, FIRST, FIRST, FIRST, FIRST, FIRST],
    },
    StoreCase {
        case: Case {
            name: "a copy to a retired frame: 20; to the next one: accepted",
            calls: &[
                "retire 5",
                "copy 5 0 5",
                "look-page 5",
                "look-frame 5",
                "copy 5 0 6",
            ],
            replies: &[
                DONE,
                RETIRED,
                "00 08 01 00 00 00 01 00 01 01",
                WORN,
                ONE_FRAME,
            ],
        },
        frames: [PAGE, FIRST, FIRST, FIRST, FIRST, FIRST, PAGE, FIRST],
    },
    StoreCase {
        case: Case {
            name: "a null copy to a retired frame: 20",
            calls: &[
                "create 2 9",
                "retire 1",
                "copy 9 0 1",
                "look-page 9",
                "copy 9 0 2",
            ],
            replies: &[
                DONE,
                DONE,
                RETIRED,
                "00 08 01 00 00 00 01 FF 00 01",
                ONE_FRAME,
            ],
        },
        frames: [PAGE, FIRST, ZEROS, FIRST, FIRST, FIRST, FIRST, FIRST],
    },
    StoreCase {
        case: Case {
            name: "a copy to a retired frame: 7, 9 and 12 before 20",
            calls: &[
                "retire 1",
                "copy 64 0 1",
                "copy 9 0 1",
                "copy 5 1 1",
                "copy 5 0 1",
            ],
            replies: &[
                DONE,
                OUTSIDE,
                "00 04 01 09 00 00",
                "00 04 01 0C 00 00",
                RETIRED,
            ],
        },
        frames: [PAGE, FIRST, FIRST, FIRST, FIRST, FIRST, FIRST, FIRST],
    },
    StoreCase {
        case: Case {
            name: "the page deleted: the marks stay",
            calls: &[
                "copy 5 0 6",
                "retire 1",
                "delete-page 3 5",
                "look-frame 1",
                "look-frame 6",
                "create 3 5",
                "copy 5 0 1",
            ],
            replies: &[
                ONE_FRAME,
                DONE,
                "00 04 01 00 00 80",
                WORN,
                FREE,
                DONE,
                RETIRED,
            ],
        },
        frames: [ZEROS, FIRST, FIRST, FIRST, FIRST, FIRST, ZEROS, FIRST],
    },
    StoreCase {
        case: Case {
            name: "a copy deleted: the marks stay",
            calls: &[
                "retire 1",
                "copy 5 0 6",
                "delete-copy 5 1",
                "look-frame 1",
                "copy 5 0 1",
            ],
            replies: &[DONE, ONE_FRAME, ONE_FRAME, WORN, RETIRED],
        },
        frames: [PAGE, FIRST, FIRST, FIRST, FIRST, FIRST, ZEROS, FIRST],
    },
    StoreCase {
        case: Case {
            name: "a freed frame retired: its zeros stay",
            calls: &[
                "copy 5 0 6",
                "delete-copy 5 1",
                "retire 6",
                "look-frame 6",
                "copy 5 0 6",
            ],
            replies: &[ONE_FRAME, ONE_FRAME, DONE, WORN, RETIRED],
        },
        frames: [PAGE, FIRST, FIRST, FIRST, FIRST, FIRST, ZEROS, FIRST],
    },
    StoreCase {
        case: Case {
            name: "all frames held or retired: reads and writes go on",
            calls: &[
                "retire 1",
                "retire 2",
                "retire 3",
                "retire 4",
                "retire 5",
                "retire 6",
                "retire 7",
                "copy 5 0 0",
                "copy 5 0 7",
                "write 3 5 0 55",
                "read 3 5 0 2",
                "delete-page 3 5",
                "retire 0",
                "look-frame 0",
            ],
            replies: &[
                DONE,
                DONE,
                DONE,
                DONE,
                DONE,
                DONE,
                DONE,
                HELD,
                RETIRED,
                "00 04 01 00 00 01",
                "00 06 01 00 00 00 55 37",
                ONE_FRAME,
                DONE,
                WORN,
            ],
        },
        frames: [ZEROS, FIRST, FIRST, FIRST, FIRST, FIRST, FIRST, FIRST],
    },
    StoreCase {
        case: Case {
            name: "L of 2 or 4: 4; kind 13: 3",
            calls: &[
                "raw 00 02 01 0C",
                "raw 00 04 01 0C 01 00",
                "raw 00 03 01 0D 01",
                "look-frame 1",
            ],
            replies: &[
                "00 04 01 04 00 00",
                "00 04 01 04 00 00",
                "00 04 01 03 00 00",
                FREE,
            ],
        },
        frames: [PAGE, FIRST, FIRST, FIRST, FIRST, FIRST, FIRST, FIRST],
    },
];

/// Calls on the tables of `gen::shaped`, where frame 14 is retired and page 2 has eight copies: each
/// with its reply to that state. More frames are needed than the program's unit has.
pub const RETIRES_ON_SHAPED: [(&str, &str); 14] = [
    ("retire 12", DONE),
    ("retire 14", DONE),
    ("retire 15", HELD),
    ("retire 0", HELD),
    ("retire 16", OUTSIDE),
    ("look-frame 14", WORN),
    ("look-frame 13", FREE),
    ("copy 3 0 14", "00 04 01 09 00 00"),
    ("copy 2 8 14", "00 04 01 0C 00 00"),
    ("copy 2 7 14", RETIRED),
    ("copy 1 0 14", RETIRED),
    ("copy 0 0 14", RETIRED),
    ("copy 2 0 10", HELD),
    ("copy 2 0 13", "00 04 01 0E 00 00"),
];

/// A call for the writer.
pub struct Written {
    pub name: &'static str,
    pub kind: u8,
    pub arguments: [u8; 4],
    pub bytes: &'static [u8],
    /// The length of the buffer.
    pub room: usize,
    /// The line of its message, or the number of the refusal.
    pub due: Result<&'static str, u8>,
}

const fn written(
    name: &'static str,
    (kind, arguments): (u8, [u8; 4]),
    bytes: &'static [u8],
    room: usize,
    due: Result<&'static str, u8>,
) -> Written {
    Written {
        name,
        kind,
        arguments,
        bytes,
        room,
        due,
    }
}

/// "The writer gives 18 for a buffer below 71 bytes, then 7 as document 01 does, with frames up to
/// 253 in range"; 3 for an unknown kind comes between.
#[rustfmt::skip]
pub const WRITTEN: [Written; 40] = [
    written("the example's creation", (1, [3, 5, 0, 0]), &[], 71, Ok("create 3 5")),
    written("the example's copy", (6, [5, 0, 0, 0]), &[], 72, Ok("copy 5 0 0")),
    written("the example's set current", (8, [5, 0, 0, 0]), &[], 80, Ok("current 5 0")),
    written("the example's write", (5, [3, 5, 0, 0]), &[0x41, 0x37], 71, Ok("write 3 5 0 41 37")),
    written("the example's read", (4, [3, 5, 0, 3]), &[], 71, Ok("read 3 5 0 3")),
    written("the example's look", (10, [5, 0, 0, 0]), &[], 200, Ok("look-page 5")),
    written("the last station and page", (2, [15, 63, 0, 0]), &[], 71, Ok("delete-page 15 63")),
    written("the highest right", (3, [15, 63, 15, 2]), &[], 71, Ok("grant 15 63 15 2")),
    written("any copy number", (7, [63, 255, 0, 0]), &[], 71, Ok("delete-copy 63 255")),
    written("a copy number past the last", (9, [0, 8, 0, 0]), &[], 71, Ok("remove-current 0 8")),
    written("a copy to the last frame", (6, [0, 255, 253, 0]), &[], 71, Ok("copy 0 255 253")),
    written("a look at the last frame", (11, [253, 0, 0, 0]), &[], 71, Ok("look-frame 253")),
    written("a retire of the first frame", (12, [0, 0, 0, 0]), &[], 71, Ok("retire 0")),
    written("a retire of the last frame", (12, [253, 255, 255, 255]), &[7; 65], 71, Ok("retire 253")),
    written("the last byte of a page", (4, [0, 0, 63, 1]), &[], 71, Ok("read 0 0 63 1")),
    written("what plays no part", (1, [3, 5, 255, 255]), &[7; 65], 71, Ok("create 3 5")),
    // 7.
    written("station 16", (1, [16, 0, 0, 0]), &[], 71, Err(7)),
    written("page 64", (2, [0, 64, 0, 0]), &[], 71, Err(7)),
    written("other station 16", (3, [0, 0, 16, 0]), &[], 71, Err(7)),
    written("right 3", (3, [0, 0, 0, 3]), &[], 71, Err(7)),
    written("frame 254", (6, [0, 0, 254, 0]), &[], 71, Err(7)),
    written("frame 255, a look", (11, [255, 0, 0, 0]), &[], 71, Err(7)),
    written("frame 254, a retire", (12, [254, 0, 0, 0]), &[], 71, Err(7)),
    written("frame 255, a retire", (12, [255, 0, 0, 0]), &[], 71, Err(7)),
    written("count 0", (4, [0, 0, 0, 0]), &[], 71, Err(7)),
    written("count 65", (4, [0, 0, 0, 65]), &[], 71, Err(7)),
    written("offset 63, count 2", (4, [0, 0, 63, 2]), &[], 71, Err(7)),
    written("offset 64", (4, [0, 0, 64, 1]), &[], 71, Err(7)),
    written("offset and count of 257: 1 in one byte", (4, [0, 0, 255, 2]), &[], 71, Err(7)),
    written("a write of no byte", (5, [0, 0, 0, 1]), &[], 71, Err(7)),
    written("a write of 65 bytes", (5, [0, 0, 0, 0]), &[7; 65], 71, Err(7)),
    written("a write of 64 bytes from offset 1 on", (5, [0, 0, 1, 0]), &[7; 64], 71, Err(7)),
    written("a write of 257 bytes: 1 in one byte", (5, [0, 0, 0, 0]), &[7; 257], 71, Err(7)),
    // 3.
    written("kind 0", (0, [0; 4]), &[], 71, Err(3)),
    written("kind 13", (13, [255; 4]), &[], 71, Err(3)),
    written("kind 255", (255, [0; 4]), &[], 71, Err(3)),
    // 18.
    written("70 bytes, whatever the message", (10, [5, 0, 0, 0]), &[], 70, Err(18)),
    written("70 bytes, out of range", (10, [64, 0, 0, 0]), &[], 70, Err(18)),
    written("70 bytes, an unknown kind", (13, [0; 4]), &[], 70, Err(18)),
    written("no byte", (11, [0; 4]), &[], 0, Err(18)),
];

/// Bytes for the reader of replies.
pub struct Read {
    pub name: &'static str,
    /// The kind that it is told.
    pub kind: u8,
    /// In hexadecimal.
    pub bytes: &'static str,
    /// The number, the bytes laid and, in hexadecimal, the data; or the number of the refusal.
    pub due: Result<(u8, u16, &'static str), u8>,
}

const fn read(
    name: &'static str,
    kind: u8,
    bytes: &'static str,
    due: Result<(u8, u16, &'static str), u8>,
) -> Read {
    Read {
        name,
        kind,
        bytes,
        due,
    }
}

#[rustfmt::skip]
pub const READ: [Read; 57] = [
    read("the example's creation", 1, DONE, Ok((0, 0, ""))),
    read("the example's copy", 6, ONE_FRAME, Ok((0, 64, ""))),
    read("the example's set current", 8, DONE, Ok((0, 0, ""))),
    read("the example's write", 5, "00 04 01 00 00 02", Ok((0, 2, ""))),
    read("the example's read", 4, "00 07 01 00 00 00 41 37 00", Ok((0, 0, "41 37 00"))),
    read("the example's look", 10, "00 08 01 00 00 00 01 00 01 01", Ok((0, 0, "01 00 01 01"))),
    read("a free frame", 11, FREE, Ok((0, 0, "00 FF FF"))),
    read("a retired frame", 11, WORN, Ok((0, 0, "02 FF FF"))),
    read("a retire", 12, DONE, Ok((0, 0, ""))),
    read("any bytes laid by a retire", 12, ONE_FRAME, Ok((0, 64, ""))),
    read("any three bytes of a frame look", 11, "00 07 01 00 00 00 09 40 08", Ok((0, 0, "09 40 08"))),
    read("a null copy", 10, "00 08 01 00 00 00 01 FF 00 01", Ok((0, 0, "01 FF 00 01"))),
    read("any frame of a page look", 10, "00 08 01 00 00 00 01 FE 01 00", Ok((0, 0, "01 FE 01 00"))),
    read("any bytes laid", 1, "00 04 01 00 FE FF", Ok((0, 0xFEFF, ""))),
    read("a refusal", 4, NO_RIGHT, Ok((10, 0, ""))),
    read("a number that the kind never gets", 4, "00 04 01 08 00 00", Ok((8, 0, ""))),
    read("number 18", 1, "00 04 01 12 00 00", Ok((18, 0, ""))),
    read("number 19", 1, "00 04 01 13 00 00", Ok((19, 0, ""))),
    read("number 20", 6, RETIRED, Ok((20, 0, ""))),
    read("a reply that carries 1", 1, "00 04 01 01 00 00", Ok((1, 0, ""))),
    read("bytes after the reply", 1, "00 04 01 00 00 00 00 04 02", Ok((0, 0, ""))),
    read("a read, bytes after it", 4, "00 05 01 00 00 00 41 37 00", Ok((0, 0, "41"))),
    // 1.
    read("no byte", 1, "", Err(1)),
    read("one byte", 1, "00", Err(1)),
    read("no byte after the length", 1, "00 04", Err(1)),
    read("the last byte missing", 1, "00 04 01 00 00", Err(1)),
    read("the last byte of a read missing", 4, "00 07 01 00 00 00 41 37", Err(1)),
    read("cut short before a foreign version", 1, "00 04 02 00 00", Err(1)),
    read("cut short before an unknown kind", 13, "00 04 01 00 00", Err(1)),
    // 2.
    read("L of 0", 1, "00 00 01 00 00 00", Err(2)),
    read("version 2", 1, "00 04 02 00 00 00", Err(2)),
    read("a foreign version before an unknown kind", 13, "00 04 00 00 00 00", Err(2)),
    read("a foreign version before a wrong length", 1, "00 01 02", Err(2)),
    // 3.
    read("kind 0", 0, DONE, Err(3)),
    read("kind 13", 13, DONE, Err(3)),
    read("an unknown kind before a wrong length", 13, "00 01 01", Err(3)),
    // 4.
    read("L of 1", 1, "00 01 01", Err(4)),
    read("L of 3", 1, "00 03 01 00 00", Err(4)),
    read("data for a kind that has none", 1, "00 05 01 00 00 00 00", Err(4)),
    read("a retire with the data of a frame look", 12, WORN, Err(4)),
    read("a read of no byte", 4, DONE, Err(4)),
    read("a page look of no byte", 10, DONE, Err(4)),
    read("a frame look of two bytes", 11, "00 06 01 00 00 00 00 FF", Err(4)),
    read("a frame look of four bytes", 11, "00 08 01 00 00 00 00 FF FF FF", Err(4)),
    read("n of 0", 10, "00 05 01 00 00 00 00", Err(4)),
    read("n of 2 with one copy", 10, "00 08 01 00 00 00 02 00 01 01", Err(4)),
    read("n of 1 with two copies", 10, "00 0B 01 00 00 00 01 00 01 01 06 00 01", Err(4)),
    read("n of 1 with part of a second copy", 10, "00 09 01 00 00 00 01 00 01 01 06", Err(4)),
    read("a CURRENT byte of 2", 10, "00 08 01 00 00 00 01 00 02 01", Err(4)),
    read("a MOST RECENT byte of 2", 10, "00 08 01 00 00 00 01 00 01 02", Err(4)),
    read("the second copy's CURRENT byte 2", 10, "00 0B 01 00 00 00 02 00 01 01 06 02 01", Err(4)),
    read("number 21", 1, "00 04 01 15 00 00", Err(4)),
    read("number 20 with bytes laid", 6, "00 04 01 14 00 40", Err(4)),
    read("number 255", 1, "00 04 01 FF 00 00", Err(4)),
    read("a refusal with bytes laid", 1, "00 04 01 08 00 40", Err(4)),
    read("a refusal with bytes laid, in the high byte", 2, "00 04 01 0A 02 00", Err(4)),
    read("a refusal with data", 4, "00 05 01 0A 00 00 41", Err(4)),
];

impl Written {
    pub fn sent(&self) -> Sent {
        Sent {
            kind: self.kind,
            arguments: self.arguments,
            bytes: self.bytes.to_vec(),
        }
    }

    /// The buffer after it, of which each byte was lent as AA; and the length, or the refusal.
    pub fn due(&self) -> (Vec<u8>, Result<usize, u8>) {
        let message = self.due.map(bytes);
        let front = message.as_deref().unwrap_or_default();
        let mut out = front.to_vec();
        out.resize(self.room, 0xAA);
        (
            out,
            message.as_ref().map(Vec::len).map_err(|&number| number),
        )
    }
}

impl Read {
    pub fn bytes(&self) -> Vec<u8> {
        raw(self.bytes)
    }

    pub fn due(&self) -> Result<Told, u8> {
        self.due.map(|(number, laid, data)| Told {
            number,
            laid,
            data: raw(data),
        })
    }
}

/// Bytes from hexadecimal.
fn raw(hex: &str) -> Vec<u8> {
    bytes(&format!("raw {hex}"))
}

/// The bytes of a line.
pub fn bytes(line: &str) -> Vec<u8> {
    lines::bytes(line).expect("a line of words")
}

/// The call file of the worked example.
pub fn example() -> Vec<u8> {
    CALLS.map(bytes).concat()
}

impl Case {
    /// The call file, the worked example before it.
    pub fn file(&self) -> Vec<u8> {
        let calls = self.calls.iter().flat_map(|line| bytes(line));
        example().into_iter().chain(calls).collect()
    }

    /// The whole list of its replies.
    pub fn replies(&self) -> Vec<Vec<u8>> {
        let replies = REPLIES.iter().chain(self.replies);
        replies.map(|reply| raw(reply)).collect()
    }
}

impl StoreCase {
    /// The stores that it leaves, fast and slow.
    pub fn stores(&self) -> [Vec<u8>; 2] {
        let first = unit(LEAST_BUFFER);
        let tables = Tables::fresh(PROGRAM_FRAMES, PROGRAM_FRAMES);
        let frames = (0..).zip(self.frames).map(|(frame, held)| match held {
            FIRST => frame_bytes(&tables, &first.fast, &first.slow, frame).to_vec(),
            front => {
                let mut held = raw(front);
                held.resize(FRAME, 0);
                held
            }
        });
        let frames: Vec<Vec<u8>> = frames.collect();
        let (fast, slow) = frames.split_at(PROGRAM_FRAMES.into());
        [fast.concat(), slow.concat()]
    }
}

/// The program's unit with a reply buffer of this length; every frame holds old bytes.
pub fn unit(room: usize) -> Lent {
    Lent {
        tables: Tables::fresh(PROGRAM_FRAMES, PROGRAM_FRAMES).to_raw(),
        fast: vec![0xEE; FRAME * usize::from(PROGRAM_FRAMES)],
        slow: vec![0xDD; FRAME * usize::from(PROGRAM_FRAMES)],
        out: vec![0xAA; room],
    }
}

/// What came of a file: its replies, what was left, and the tally.
#[derive(Debug, PartialEq, Eq)]
pub struct Served {
    pub replies: Vec<Vec<u8>>,
    pub left: Lent,
    pub tally: Tally,
}

/// A file answered message by message; nothing is counted.
pub fn one_by_one(kernel: &dyn Kernel, file: &[u8]) -> Served {
    let mut left = unit(LEAST_BUFFER);
    let mut replies = Vec::new();
    for message in Reader::new(file) {
        let length = kernel.answer(&mut left, message) / 256 % 256;
        replies.push(left.out[..length as usize].to_vec());
    }
    Served {
        replies,
        left,
        tally: [0; 3],
    }
}

/// A file answered part by part in a reply buffer of this length; a part without a message is the
/// last.
pub fn in_parts(kernel: &dyn Kernel, file: &[u8], room: usize) -> Served {
    let mut left = unit(room);
    let (mut bytes, mut tally, mut at) = (Vec::new(), [0; 3], 0);
    loop {
        let reached = kernel.replies(&mut left, file, at, &mut tally);
        bytes.extend(&left.out[..reached.used]);
        if reached.at == at {
            break;
        }
        at = reached.at;
    }
    Served {
        // A reply tells its length as a message does.
        replies: Reader::new(&bytes).map(<[u8]>::to_vec).collect(),
        left,
        tally,
    }
}
