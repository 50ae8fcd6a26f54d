//! A flash of two sectors in memory: programming stores old AND new, and each four-byte unit is logged in order.

use embedded_storage::nor_flash::{ErrorType, NorFlash, NorFlashError, NorFlashErrorKind, ReadNorFlash};

use crate::platform::{Crc, software_crc32};

pub const SECTOR: usize = 4096;
const UNIT: usize = 4;

/// An address, and the four bytes programmed there.
#[derive(Clone, Copy, Debug, PartialEq, Eq)]
pub struct Unit {
    pub address: u32,
    pub bytes: [u8; UNIT],
}

impl Unit {
    /// Stores old AND new.
    pub fn program(&self, image: &mut [u8]) {
        let at = self.address as usize;
        for (old, new) in image[at..at + UNIT].iter_mut().zip(self.bytes) {
            *old &= new;
        }
    }
}

/// The page of a call lies in the first sector, the source of a copy in the second.
pub struct Flash {
    pub bytes: Vec<u8>,
    pub log: Vec<Unit>,
}

impl Default for Flash {
    fn default() -> Self {
        Flash { bytes: vec![0xFF; 2 * SECTOR], log: Vec::new() }
    }
}

impl Flash {
    /// An access that leaves the flash or its units is an error, as a real flash has it.
    fn whole_units(&self, address: u32, length: usize) -> Result<(), BadAccess> {
        let start = address as usize;
        let aligned = start.is_multiple_of(UNIT) && length.is_multiple_of(UNIT);
        if aligned && start + length <= self.bytes.len() { Ok(()) } else { Err(BadAccess) }
    }
}

#[derive(Debug)]
pub struct BadAccess;

impl NorFlashError for BadAccess {
    fn kind(&self) -> NorFlashErrorKind {
        NorFlashErrorKind::Other
    }
}

impl ErrorType for Flash {
    type Error = BadAccess;
}

impl ReadNorFlash for Flash {
    const READ_SIZE: usize = UNIT;

    fn read(&mut self, offset: u32, bytes: &mut [u8]) -> Result<(), BadAccess> {
        self.whole_units(offset, bytes.len())?;
        let start = offset as usize;
        bytes.copy_from_slice(&self.bytes[start..start + bytes.len()]);
        Ok(())
    }

    fn capacity(&self) -> usize {
        self.bytes.len()
    }
}

impl NorFlash for Flash {
    const WRITE_SIZE: usize = UNIT;
    const ERASE_SIZE: usize = SECTOR;

    /// No call of the page layer erases a sector.
    fn erase(&mut self, _from: u32, _to: u32) -> Result<(), BadAccess> {
        Err(BadAccess)
    }

    fn write(&mut self, offset: u32, bytes: &[u8]) -> Result<(), BadAccess> {
        self.whole_units(offset, bytes.len())?;
        let (units, _) = bytes.as_chunks::<UNIT>();
        for (address, unit) in (offset..).step_by(UNIT).zip(units) {
            let unit = Unit { address, bytes: *unit };
            unit.program(&mut self.bytes);
            self.log.push(unit);
        }
        Ok(())
    }
}

impl Crc for Flash {
    fn crc32(init: u32, data: &[u8]) -> u32 {
        software_crc32(init, data)
    }
}
