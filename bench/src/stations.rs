//! Plain Rust for stations: a writer for calls and a reader for replies, with the kernel's answers to
//! any bytes and the signatures of its binding.

/// The shortest buffer that a message is written into.
pub const MESSAGE: usize = 71;

/// What a reply tells.
#[derive(Clone, Copy, Debug, PartialEq, Eq)]
pub struct Told {
    /// 0 accepted, else the number of the refusal that the reply carries.
    pub number: u8,
    /// The bytes laid.
    pub laid: u16,
    /// Where the data of a read or look stand, and how many they are.
    pub start: usize,
    pub length: usize,
}

fn in_page(offset: u8, count: usize) -> bool {
    count != 0 && usize::from(offset) + count <= 64
}

/// Writes the message of a call; its length, or 18, 3 or 7.
#[inline(never)]
pub fn write_by_rust(
    kind: u8,
    arguments: [u8; 4],
    bytes: &[u8],
    out: &mut [u8],
) -> Result<usize, u8> {
    if out.len() < MESSAGE {
        return Err(18);
    }
    let [a, b, c, d] = arguments;
    let (count, is_in_range) = match kind {
        1 | 2 => (2, a <= 15 && b <= 63),
        3 => (4, a <= 15 && b <= 63 && c <= 15 && d <= 2),
        4 => (4, a <= 15 && b <= 63 && in_page(c, d.into())),
        5 => (3, a <= 15 && b <= 63 && in_page(c, bytes.len())),
        6 => (3, a <= 63 && c <= 253),
        7..=9 => (2, a <= 63),
        10 => (1, a <= 63),
        11 | 12 => (1, a <= 253),
        _ => return Err(3),
    };
    if !is_in_range {
        return Err(7);
    }
    let bytes = if kind == 5 { bytes } else { &[] };
    let length = 4 + count + bytes.len();
    out[..4].copy_from_slice(&[0, (length - 2) as u8, 1, kind]);
    out[4..4 + count].copy_from_slice(&arguments[..count]);
    out[4 + count..length].copy_from_slice(bytes);
    Ok(length)
}

/// Reads the reply to a message of a kind, or gives 1 to 4.
#[inline(never)]
pub fn read_reply_by_rust(kind: u8, reply: &[u8]) -> Result<Told, u8> {
    let (&length, rest) = reply.split_first_chunk().ok_or(1)?;
    let body = rest
        .get(..usize::from(u16::from_be_bytes(length)))
        .ok_or(1)?;
    if body.first() != Some(&1) {
        return Err(2);
    }
    if !(1..=12).contains(&kind) {
        return Err(3);
    }
    let [_, number, high, low, ref data @ ..] = *body else {
        return Err(4);
    };
    let laid = u16::from_be_bytes([high, low]);
    let is_sound = match (number, kind) {
        (0, 4) => (1..=64).contains(&data.len()),
        (0, 10) => is_page_look(data),
        (0, 11) => data.len() == 3,
        (0, _) => data.is_empty(),
        (1..=20, _) => laid == 0 && data.is_empty(),
        _ => false,
    };
    if !is_sound {
        return Err(4);
    }
    Ok(Told {
        number,
        laid,
        start: 6,
        length: data.len(),
    })
}

/// n, and for each copy its frame and two marks.
fn is_page_look(data: &[u8]) -> bool {
    let Some((&n, copies)) = data.split_first() else {
        return false;
    };
    (1..=8).contains(&n)
        && copies.len() == 3 * usize::from(n)
        && copies
            .chunks_exact(3)
            .all(|copy| copy[1] <= 1 && copy[2] <= 1)
}
