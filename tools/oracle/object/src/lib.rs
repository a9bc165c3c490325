//! The three names that the crate takes from the crate `object`.

/// A byte order.
#[derive(Clone, Copy, Debug, Eq, PartialEq)]
pub enum Endianness {
    /// Low byte first.
    Little,
    /// High byte first.
    Big,
}

impl Default for Endianness {
    fn default() -> Self {
        if cfg!(target_endian = "little") {
            Self::Little
        } else {
            Self::Big
        }
    }
}

/// Reads numbers in a byte order.
pub trait Endian {
    /// A word from its four bytes.
    fn read_u32(self, bytes: [u8; 4]) -> u32;
}

impl Endian for Endianness {
    fn read_u32(self, bytes: [u8; 4]) -> u32 {
        match self {
            Self::Little => u32::from_le_bytes(bytes),
            Self::Big => u32::from_be_bytes(bytes),
        }
    }
}

/// The place of a section in an object file.
#[derive(Clone, Copy, Debug, Eq, Hash, PartialEq)]
pub struct SectionIndex(pub usize);
