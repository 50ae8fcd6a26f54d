//! The record of 01 ('The record'), and the 675 bytes that it is at the boundary.

pub const ENTRIES: usize = 126;
pub const RECORD: usize = 675;

/// The page states in the order of their numbers at the boundary.
pub const UNINITIALIZED: u8 = 0;
pub const ACTIVE: u8 = 1;
pub const FULL: u8 = 2;
pub const FREEING: u8 = 3;
pub const CORRUPT: u8 = 4;
pub const INVALID: u8 = 5;

/// The two bits of an entry's state.
pub const EMPTY: u8 = 0b11;
pub const WRITTEN: u8 = 0b10;
pub const ERASED: u8 = 0b00;
pub const ILLEGAL: u8 = 0b01;

#[derive(Clone, Copy, Debug, PartialEq, Eq)]
pub struct Listed {
    pub hash: u32,
    pub index: u8,
}

#[derive(Clone, Debug, PartialEq, Eq)]
pub struct Record {
    pub state: u8,
    pub sequence: u32,
    pub version: u8,
    pub header_crc: u32,
    pub map: [u8; 32],
    pub used: u8,
    pub erased: u8,
    pub list: Vec<Listed>,
}

impl Default for Record {
    /// The Uninitialized record.
    fn default() -> Self {
        Record {
            state: UNINITIALIZED,
            sequence: 0,
            version: 0,
            header_crc: 0,
            map: [0xFF; 32],
            used: 0,
            erased: 0,
            list: Vec::with_capacity(ENTRIES),
        }
    }
}

impl Record {
    pub fn next_free(&self) -> usize {
        self.used as usize + self.erased as usize
    }

    /// The two bits of an entry below 128.
    pub fn mark(&self, index: usize) -> u8 {
        (self.map[index / 4] >> (2 * (index % 4))) & 0b11
    }

    pub fn set_mark(&mut self, index: usize, bits: u8) {
        let shift = 2 * (index % 4);
        let byte = &mut self.map[index / 4];
        *byte = (*byte & !(0b11 << shift)) | (bits << shift);
    }

    pub fn written(&self) -> usize {
        (0..ENTRIES).filter(|&index| self.mark(index) == WRITTEN).count()
    }

    /// Little endian, no gaps; the places after the list's length are zero. Of a longer list than a record has, which
    /// only the Rust makes, the places past 126 are left out.
    pub fn encode(&self, bytes: &mut [u8; RECORD]) {
        bytes[0] = self.state;
        bytes[1..5].copy_from_slice(&self.sequence.to_le_bytes());
        bytes[5] = self.version;
        bytes[6..10].copy_from_slice(&self.header_crc.to_le_bytes());
        bytes[10..42].copy_from_slice(&self.map);
        bytes[42] = self.used;
        bytes[43] = self.erased;
        bytes[44] = self.list.len() as u8;
        let (places, unused) = bytes[45..].split_at_mut(5 * self.list.len().min(ENTRIES));
        for (place, listed) in places.as_chunks_mut::<5>().0.iter_mut().zip(&self.list) {
            place[..4].copy_from_slice(&listed.hash.to_le_bytes());
            place[4] = listed.index;
        }
        unused.fill(0);
    }

    /// The record that these bytes are, whose places after the list are zero.
    pub fn decode(bytes: &[u8; RECORD]) -> Record {
        let word = |at: usize| u32::from_le_bytes([bytes[at], bytes[at + 1], bytes[at + 2], bytes[at + 3]]);
        let place = |at: usize| Listed { hash: word(at), index: bytes[at + 4] };
        let mut record = Record { state: bytes[0], version: bytes[5], used: bytes[42], ..Record::default() };
        record.sequence = word(1);
        record.header_crc = word(6);
        record.map.copy_from_slice(&bytes[10..42]);
        record.erased = bytes[43];
        record.list.extend((0..bytes[44] as usize).map(|number| place(45 + 5 * number)));
        record
    }

    /// What a byte of the encoding belongs to.
    pub fn field_of(offset: usize) -> String {
        match offset {
            0 => "state".into(),
            1..5 => "sequence".into(),
            5 => "version".into(),
            6..10 => "header CRC".into(),
            10..42 => format!("map byte {}", offset - 10),
            42 => "used".into(),
            43 => "erased".into(),
            44 => "length".into(),
            _ => format!("list place {}", (offset - 45) / 5),
        }
    }
}
