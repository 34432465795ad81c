//! Stand-in for `byteorder`: the four little-endian calls that the message types make.

/// Reading and writing of numbers in a given byte order.
pub trait ByteOrder {
    /// The 16-bit number at the start of `buf`.
    fn read_u16(buf: &[u8]) -> u16;
    /// The 32-bit number at the start of `buf`.
    fn read_u32(buf: &[u8]) -> u32;
    /// Write a 16-bit number to the start of `buf`.
    fn write_u16(buf: &mut [u8], n: u16);
    /// Write a 32-bit number to the start of `buf`.
    fn write_u32(buf: &mut [u8], n: u32);
}

/// Least significant byte first.
pub enum LittleEndian {}

impl ByteOrder for LittleEndian {
    fn read_u16(buf: &[u8]) -> u16 {
        u16::from_le_bytes([buf[0], buf[1]])
    }

    fn read_u32(buf: &[u8]) -> u32 {
        u32::from_le_bytes([buf[0], buf[1], buf[2], buf[3]])
    }

    fn write_u16(buf: &mut [u8], n: u16) {
        buf[..2].copy_from_slice(&n.to_le_bytes());
    }

    fn write_u32(buf: &mut [u8], n: u32) {
        buf[..4].copy_from_slice(&n.to_le_bytes());
    }
}
