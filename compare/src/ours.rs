//! Our side: the C functions of the archive, on the inputs of a case.
//!
//! A planted fault changes what comes back as a wrong program would, to show that the comparison sees it.

use std::str::FromStr;

use compare::case::*;
use nvs_page::sys;

/// A wrong program to be found out.
#[derive(Clone, Copy, PartialEq, Eq)]
pub enum Fault {
    /// An entry is marked Erased, not Written, in the image.
    WrongMark,
    /// A tail that is all 0xFF is counted as a unit though it is not written.
    BlankTailCounted,
    /// PageFull is checked before ValueTooLong.
    FullBeforeTooLong,
}

impl FromStr for Fault {
    type Err = String;

    fn from_str(number: &str) -> Result<Self, String> {
        match number {
            "1" => Ok(Fault::WrongMark),
            "2" => Ok(Fault::BlankTailCounted),
            "3" => Ok(Fault::FullBeforeTooLong),
            _ => Err(format!("{number}: the faults are 1, 2 and 3")),
        }
    }
}

#[derive(Default)]
pub struct Ours {
    pub fault: Option<Fault>,
}

impl Ours {
    pub fn run(&self, case: &Case, stop: u64, outcome: &mut Outcome) {
        outcome.before(case);
        let stop = if self.fault == Some(Fault::BlankTailCounted) { one_unit_late(case, stop) } else { stop };
        // What the buffer held before has to be gone.
        if case.call.has_answer() {
            outcome.answer.fill(0xA5);
        }
        call(case, stop, outcome);
        match self.fault {
            Some(Fault::WrongMark) => wrong_mark(case, outcome),
            Some(Fault::FullBeforeTooLong) if outcome.returned == VALUE_TOO_LONG => outcome.returned = PAGE_FULL,
            _ => (),
        }
    }
}

/// The call alone, on what stands in the outcome's buffers.
fn call(case: &Case, stop: u64, outcome: &mut Outcome) {
    outcome.returned = if case.call.writes_image() {
        write(case, stop, outcome)
    } else if case.call.has_answer() {
        read(case.call, case, outcome)
    } else {
        number(case.call, case)
    };
}

/// The calls that hand back a number alone.
#[inline(always)]
pub fn number(call: Call, case: &Case) -> u32 {
    let data = &case.data;
    // Safety: each pointer goes with the length of its slice.
    unsafe {
        match call {
            Call::Crc32 => sys::nvs_crc32(case.number, data.as_ptr(), data.len()),
            Call::TypeByte => sys::nvs_type_byte(case.type_byte).into(),
            call => unreachable!("{call:?} hands back more than a number"),
        }
    }
}

/// The calls with an answer.
#[inline(always)]
pub fn read(call: Call, case: &Case, outcome: &mut Outcome) -> u32 {
    let (image, image_length) = (case.image.as_ptr(), case.image.len());
    let (map, map_length) = (case.record.map.as_ptr(), case.record.map.len());
    let (data, data_length, key) = (case.data.as_ptr(), case.data.len(), case.key.as_ptr());
    let entries = &case.image[64..];
    let (answer, length) = (outcome.answer.as_mut_ptr(), outcome.answer.len());
    let (output, output_length) = (outcome.output.as_mut_ptr(), outcome.output.len());
    // Safety: each pointer goes with the length of its slice, and answer and output are buffers of their own.
    unsafe {
        match call {
            Call::ItemCrc => sys::nvs_item_crc(data, data_length, answer, length),
            Call::HeaderCrc => sys::nvs_header_crc(data, data_length, answer, length),
            Call::Hash => sys::nvs_hash(case.namespace, key, case.key.len(), case.chunk, answer, length),
            Call::Width => sys::nvs_width(case.type_byte, answer, length),
            Call::Load => sys::nvs_load(image, image_length, case.index, answer, length),
            Call::RawRead => sys::nvs_raw_read(image, image_length, case.index, answer, length),
            Call::LoadData => {
                sys::nvs_load_data(image, image_length, case.index, output, output_length, answer, length)
            }
            Call::EntryState => sys::nvs_entry_state(map, map_length, case.index, answer, length),
            Call::Statistics => sys::nvs_statistics(map, map_length, answer, length),
            Call::HashBound => sys::nvs_hash_bound(map, map_length, entries.as_ptr(), entries.len(), answer, length),
            call => unreachable!("{call:?} has no answer"),
        }
    }
}

/// The calls that may write an image.
pub fn write(case: &Case, stop: u64, outcome: &mut Outcome) -> u32 {
    let (image, size) = (outcome.image.as_mut_ptr(), outcome.image.len());
    let (record, length) = (outcome.record.as_mut_ptr(), outcome.record.len());
    let (source, source_length) = (case.source.as_ptr(), case.source.len());
    // Safety: each pointer goes with the length of its slice, and image and record are buffers of their own.
    unsafe {
        match case.call {
            Call::Open => sys::nvs_open(image, size, record, length),
            Call::Initialise => sys::nvs_initialise(image, size, record, length, case.number, stop),
            Call::MarkFull => sys::nvs_mark_full(image, size, record, length),
            Call::CopyIn => sys::nvs_copy_in(image, size, record, length, source, source_length, case.index, stop),
            Call::Erase => sys::nvs_erase(image, size, record, length, case.index, case.span),
            Call::Purge => sys::nvs_purge(image, size, case.index, case.span),
            Call::PurgeNamespace => sys::nvs_purge_namespace(image, size, record, length, case.namespace),
            _ => append(case, stop, outcome),
        }
    }
}

#[rustfmt::skip]
fn append(case: &Case, stop: u64, outcome: &mut Outcome) -> u32 {
    let (image, size) = (outcome.image.as_mut_ptr(), outcome.image.len());
    let (record, length) = (outcome.record.as_mut_ptr(), outcome.record.len());
    let (key, key_length) = (case.key.as_ptr(), case.key.len());
    let (single, single_length) = (case.single.as_ptr(), case.single.len());
    let (data, data_length) = (case.data.as_ptr(), case.data.len());
    let (namespace, type_byte, chunk) = (case.namespace, case.type_byte, case.chunk);
    // Safety: each pointer goes with the length of its slice, and image and record are buffers of their own.
    unsafe {
        match case.call {
            Call::AppendSingle => sys::nvs_append_single(
                image, size, record, length, namespace, type_byte, case.span, chunk, key, key_length,
                single, single_length, stop,
            ),
            Call::AppendNamespace => sys::nvs_append_namespace(
                image, size, record, length, key, key_length, case.value, stop,
            ),
            Call::AppendVariable => sys::nvs_append_variable(
                image, size, record, length, namespace, type_byte, chunk, key, key_length, data, data_length, stop,
            ),
            call => unreachable!("{call:?} does not append"),
        }
    }
}

/// The stop as a program sees it that has counted a blank tail.
fn one_unit_late(case: &Case, stop: u64) -> u64 {
    let whole = case.data.len() / 4;
    let tail = &case.data[4 * whole..];
    let blank_tail = !tail.is_empty() && tail.iter().all(|&byte| byte == 0xFF);
    let counted = case.call == Call::AppendVariable && blank_tail && stop != NO_STOP;
    if counted && stop > 8 + whole as u64 { stop - 1 } else { stop }
}

/// Clears the upper bit of the new item's mark.
fn wrong_mark(case: &Case, outcome: &mut Outcome) {
    let appended = case.call.can_stop() && case.call != Call::Initialise && outcome.returned == DONE;
    if appended {
        let index = case.record.next_free();
        outcome.image[32 + index / 4] &= !(0b10 << (2 * (index % 4)));
    }
}
