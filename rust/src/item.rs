//! An entry of 32 bytes that holds an item, and its key.

use crate::ITEM_SIZE;

/// 16 bytes: up to 15 of a name, and zeros after them.
pub type Key = [u8; 16];

/// The chunk index of an item that is no chunk of a blob.
pub const NO_CHUNK: u8 = 0xFF;

/// The key of a name.
///
/// # Panics
/// If the name is longer than 15 bytes: name keys in a `const`, and the compiler says so.
pub const fn key(name: &str) -> Key {
    assert!(name.len() <= 15, "a key has at most 15 bytes");
    let mut key = [0; 16];
    let mut at = 0;
    while at < name.len() {
        key[at] = name.as_bytes()[at];
        at += 1;
    }
    key
}

/// The thirteen types.
#[derive(Clone, Copy, Debug, PartialEq, Eq)]
#[repr(u8)]
pub enum ItemType {
    U8 = 0x01,
    I8 = 0x11,
    U16 = 0x02,
    I16 = 0x12,
    U32 = 0x04,
    I32 = 0x14,
    U64 = 0x08,
    I64 = 0x18,
    Sized = 0x21,
    Blob = 0x41,
    BlobData = 0x42,
    BlobIndex = 0x48,
    Any = 0xFF,
}

/// An item as it was loaded: its type byte is one of the thirteen, and its CRC is right.
#[derive(Clone, Copy, Debug, PartialEq, Eq)]
pub struct Item(pub(crate) [u8; ITEM_SIZE]);

impl Item {
    pub fn as_bytes(&self) -> &[u8; ITEM_SIZE] {
        &self.0
    }

    pub fn namespace(&self) -> u8 {
        self.0[0]
    }

    pub fn type_byte(&self) -> u8 {
        self.0[1]
    }

    /// How many entries it covers, its own among them, as it claims.
    pub fn span(&self) -> u8 {
        self.0[2]
    }

    pub fn chunk(&self) -> u8 {
        self.0[3]
    }

    pub fn crc(&self) -> u32 {
        u32::from_le_bytes([self.0[4], self.0[5], self.0[6], self.0[7]])
    }

    pub fn key(&self) -> Key {
        let mut key = [0; 16];
        key.copy_from_slice(&self.0[8..24]);
        key
    }

    /// The eight data bytes: an integer lies in the first of them, little endian.
    pub fn data(&self) -> [u8; 8] {
        let mut data = [0; 8];
        data.copy_from_slice(&self.0[24..]);
        data
    }

    /// The size of the payload of a Sized, Blob or BlobData, as it claims.
    pub fn size(&self) -> u16 {
        u16::from_le_bytes([self.0[24], self.0[25]])
    }

    /// The CRC of the payload, from 0xFFFFFFFF.
    pub fn payload_crc(&self) -> u32 {
        u32::from_le_bytes([self.0[28], self.0[29], self.0[30], self.0[31]])
    }
}
