//! A call with everything that it is given, and what comes back.

use crate::flash::SECTOR;
use crate::record::{RECORD, Record};

pub const ANSWER: usize = 57;
pub const NO_STOP: u64 = u64::MAX;

/// What a number of 01 is called; 255 is the boundary's own, and the last two are the Rust's alone.
pub const NUMBERS: [(u32, &str); 15] = [
    (0, "done"),
    (1, "BadImage"),
    (2, "BadRecord"),
    (3, "WrongState"),
    (4, "BadRequest"),
    (5, "ValueTooLong"),
    (6, "PageFull"),
    (7, "KeyNotFound"),
    (8, "ItemTypeMismatch"),
    (9, "CorruptedData"),
    (10, "NotWritten"),
    (11, "Stopped"),
    (255, "BadCall"),
    (OTHER_ERROR, "another error"),
    (PANICKED, "panic"),
];
pub const DONE: u32 = 0;
pub const VALUE_TOO_LONG: u32 = 5;
pub const PAGE_FULL: u32 = 6;
pub const KEY_NOT_FOUND: u32 = 7;
pub const ITEM_TYPE_MISMATCH: u32 = 8;
pub const CORRUPTED_DATA: u32 = 9;
pub const STOPPED: u32 = 11;
pub const OTHER_ERROR: u32 = 1000;
pub const PANICKED: u32 = 1001;

pub fn name_of_number(number: u32) -> &'static str {
    NUMBERS.iter().find(|(known, _)| *known == number).map_or("no number of 01", |(_, name)| name)
}

/// The calls in the order of the boundary's table. The numbers stand in the recorded file.
#[derive(Clone, Copy, Debug, PartialEq, Eq, Hash, PartialOrd, Ord)]
#[repr(u8)]
pub enum Call {
    Crc32,
    ItemCrc,
    HeaderCrc,
    Hash,
    TypeByte,
    Width,
    Load,
    RawRead,
    LoadData,
    EntryState,
    Statistics,
    HashBound,
    Open,
    Initialise,
    MarkFull,
    AppendSingle,
    AppendNamespace,
    AppendVariable,
    CopyIn,
    Erase,
    Purge,
    PurgeNamespace,
}

pub const CALLS: [Call; 22] = [
    Call::Crc32,
    Call::ItemCrc,
    Call::HeaderCrc,
    Call::Hash,
    Call::TypeByte,
    Call::Width,
    Call::Load,
    Call::RawRead,
    Call::LoadData,
    Call::EntryState,
    Call::Statistics,
    Call::HashBound,
    Call::Open,
    Call::Initialise,
    Call::MarkFull,
    Call::AppendSingle,
    Call::AppendNamespace,
    Call::AppendVariable,
    Call::CopyIn,
    Call::Erase,
    Call::Purge,
    Call::PurgeNamespace,
];

impl Call {
    /// Whether the call hands back a number that is none of 01's, and cannot refuse.
    pub fn is_number(self) -> bool {
        matches!(self, Call::Crc32 | Call::TypeByte)
    }

    /// Whether the call can be told to stop.
    pub fn can_stop(self) -> bool {
        use Call::*;
        matches!(self, Initialise | AppendSingle | AppendNamespace | AppendVariable | CopyIn)
    }

    /// Whether the call takes a record, which comes back.
    pub fn takes_record(self) -> bool {
        use Call::*;
        self.can_stop() || matches!(self, MarkFull | Erase | PurgeNamespace)
    }

    /// Whether the call takes an image that it may write.
    pub fn writes_image(self) -> bool {
        self.takes_record() || matches!(self, Call::Purge | Call::Open)
    }

    /// Whether the call reads the image, or the 126 entries in it.
    pub fn takes_image(self) -> bool {
        self.writes_image() || matches!(self, Call::Load | Call::RawRead | Call::LoadData | Call::HashBound)
    }

    /// Whether the call takes the record's map.
    pub fn takes_map(self) -> bool {
        matches!(self, Call::EntryState | Call::Statistics | Call::HashBound)
    }

    pub fn has_answer(self) -> bool {
        !self.is_number() && !self.writes_image()
    }
}

/// The inputs of every call side by side; each call reads those that it has.
///
/// The map of state, statistics and hash bound is the record's, and the entries of hash bound are the image's. The 32
/// bytes of an item or a header whose CRC is asked for are `data`.
#[derive(Clone)]
pub struct Case {
    pub call: Call,
    pub image: [u8; SECTOR],
    pub source: [u8; SECTOR],
    pub record: Record,
    pub namespace: u8,
    /// The type byte of an append, and the byte of type byte and width.
    pub type_byte: u8,
    pub chunk: u8,
    pub value: u8,
    /// The start of a CRC, the sequence of initialise.
    pub number: u32,
    pub index: u64,
    pub span: u64,
    pub key: [u8; 16],
    pub single: [u8; 8],
    pub data: Vec<u8>,
    pub output: Vec<u8>,
}

impl Case {
    pub fn new(call: Call) -> Self {
        Case {
            call,
            image: [0xFF; SECTOR],
            source: [0xFF; SECTOR],
            record: Record::default(),
            namespace: 0,
            type_byte: 0,
            chunk: 0xFF,
            value: 0,
            number: 0,
            index: 0,
            span: 1,
            key: [0; 16],
            single: [0; 8],
            data: Vec::new(),
            output: Vec::new(),
        }
    }
}

/// What comes back from a call, as bytes; empty where the call has no such part.
#[derive(Clone, Debug, PartialEq, Eq)]
pub struct Outcome {
    /// 01's number, or the number asked for of the calls that cannot refuse.
    pub returned: u32,
    pub answer: [u8; ANSWER],
    pub image: Vec<u8>,
    pub record: Vec<u8>,
    pub output: Vec<u8>,
}

impl Default for Outcome {
    fn default() -> Self {
        let (image, record, output) = (Vec::new(), Vec::new(), Vec::new());
        Outcome { returned: 0, answer: [0; ANSWER], image, record, output }
    }
}

impl Outcome {
    /// The parts as they go into the call.
    pub fn before(&mut self, case: &Case) {
        self.returned = 0;
        self.answer.fill(0);
        self.image.clear();
        self.record.clear();
        self.output.clear();
        if case.call.writes_image() {
            self.image.extend_from_slice(&case.image);
        }
        if case.call.takes_record() {
            self.set_record(&case.record);
        }
        if case.call == Call::Open {
            // Opening reads nothing of the buffer for its record.
            self.record.resize(RECORD, 0xA5);
        }
        if case.call == Call::LoadData {
            self.output.extend_from_slice(&case.output);
        }
    }

    pub fn set_record(&mut self, record: &Record) {
        let mut bytes = [0; RECORD];
        record.encode(&mut bytes);
        self.record.clear();
        self.record.extend_from_slice(&bytes);
    }

    pub fn set_type(&mut self, byte: u8) {
        self.answer[0] = byte;
    }

    pub fn set_number(&mut self, number: u64) {
        self.answer[1..9].copy_from_slice(&number.to_le_bytes());
    }

    pub fn set_item(&mut self, item: &[u8; 32]) {
        self.answer[9..41].copy_from_slice(item);
    }

    pub fn set_counts(&mut self, counts: [u32; 4]) {
        for (place, count) in self.answer[41..].as_chunks_mut::<4>().0.iter_mut().zip(counts) {
            *place = count.to_le_bytes();
        }
    }
}
