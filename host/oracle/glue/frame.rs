//! frame/mod.rs, absent in the reference. The reader's text is taken in here, so that its state can be asked for and set.

mod header;
mod writer;

mod reader {
    include!("reader.rs");

    impl<R> FrameReader<R> {
        /// A reader at a cursor of its block, spoilt or not.
        pub fn at(reader: R, cursor: usize, spoilt: bool) -> Self {
            FrameReader { reader, cursor, block_corrupted: spoilt }
        }

        /// Cursor, and whether the block is spoilt.
        pub fn state(&self) -> (usize, bool) {
            (self.cursor, self.block_corrupted)
        }
    }
}

pub use self::header::{FrameType, HEADER_LEN};
pub(crate) use self::header::Header;
pub use self::reader::{FrameReader, ReadFrameError};
pub use self::writer::FrameWriter;
