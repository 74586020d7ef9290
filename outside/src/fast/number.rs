//! Numbers in the file's byte order, out of arrays of known length: with a
//! constant place the bounds are tested at compile time.

#[inline(always)]
pub fn short<const BIG: bool>(bytes: [u8; 2]) -> u16 {
    if BIG {
        u16::from_be_bytes(bytes)
    } else {
        u16::from_le_bytes(bytes)
    }
}

#[inline(always)]
pub fn long<const BIG: bool>(bytes: [u8; 4]) -> u32 {
    if BIG {
        u32::from_be_bytes(bytes)
    } else {
        u32::from_le_bytes(bytes)
    }
}

#[inline(always)]
pub fn bits<const BIG: bool>(bytes: [u8; 8]) -> u64 {
    if BIG {
        u64::from_be_bytes(bytes)
    } else {
        u64::from_le_bytes(bytes)
    }
}

#[inline(always)]
pub fn short_at<const BIG: bool, const N: usize>(run: &[u8; N], at: usize) -> u16 {
    short::<BIG>([run[at], run[at + 1]])
}

#[inline(always)]
pub fn long_at<const BIG: bool, const N: usize>(run: &[u8; N], at: usize) -> u32 {
    long::<BIG>([run[at], run[at + 1], run[at + 2], run[at + 3]])
}
