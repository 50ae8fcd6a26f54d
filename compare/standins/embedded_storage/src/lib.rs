//! Stands in for the crate `embedded-storage`: the traits of a NOR flash that the original's `platform.rs` and
//! `mem_flash.rs` name, and nothing else.
#![no_std]

pub mod nor_flash {
    use core::fmt::Debug;

    #[derive(Debug, Clone, Copy, PartialEq, Eq)]
    pub enum NorFlashErrorKind {
        NotAligned,
        OutOfBounds,
        Other,
    }

    pub trait NorFlashError: Debug {
        fn kind(&self) -> NorFlashErrorKind;
    }

    pub trait ErrorType {
        type Error: NorFlashError;
    }

    pub trait ReadNorFlash: ErrorType {
        const READ_SIZE: usize;

        fn read(&mut self, offset: u32, bytes: &mut [u8]) -> Result<(), Self::Error>;

        fn capacity(&self) -> usize;
    }

    pub trait NorFlash: ReadNorFlash {
        const WRITE_SIZE: usize;
        const ERASE_SIZE: usize;

        fn erase(&mut self, from: u32, to: u32) -> Result<(), Self::Error>;

        fn write(&mut self, offset: u32, bytes: &[u8]) -> Result<(), Self::Error>;
    }
}
