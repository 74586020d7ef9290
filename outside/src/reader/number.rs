//! Numbers of a file in either byte order, and the sizes of the types.

/// The byte order that bytes 0-1 of the file name.
#[derive(Clone, Copy, Debug, PartialEq, Eq)]
pub enum Order {
    Little,
    Big,
}

/// A position in a run of bytes as an index.
pub fn index(position: u64) -> usize {
    usize::try_from(position).expect("a position inside a lent run fits an index")
}

/// The `width` bytes from `at` as one whole number.
fn number(order: Order, bytes: &[u8], at: u64, width: u64) -> u64 {
    let mut total = 0;
    for step in 0..width {
        let most_significant_first = match order {
            Order::Little => width - 1 - step,
            Order::Big => step,
        };
        total = total * 256 + u64::from(bytes[index(at + most_significant_first)]);
    }
    total
}

pub fn short(order: Order, bytes: &[u8], at: u64) -> u16 {
    u16::try_from(number(order, bytes, at, 2)).expect("two bytes")
}

pub fn long(order: Order, bytes: &[u8], at: u64) -> u32 {
    u32::try_from(number(order, bytes, at, 4)).expect("four bytes")
}

/// The 64 bits of a DOUBLE.
pub fn double_bits(order: Order, bytes: &[u8], at: u64) -> u64 {
    number(order, bytes, at, 8)
}

/// The size in bytes of one element of types 1 to 12; none for another type.
pub fn size_of_type(kind: u16) -> Option<u64> {
    const SIZES: [u64; 12] = [1, 1, 2, 4, 8, 1, 1, 2, 4, 8, 4, 8];
    match kind {
        1..=12 => Some(SIZES[usize::from(kind) - 1]),
        _ => None,
    }
}
