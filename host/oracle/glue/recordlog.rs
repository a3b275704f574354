//! recordlog/mod.rs, absent in the reference. The reader's text is taken in here, so that its state can be asked for and set.

mod writer;

mod reader {
    include!("reader.rs");

    impl<R> RecordReader<R> {
        /// A reader at a cursor of its block, spoilt or not, outside any record.
        pub fn at(reader: R, cursor: usize, spoilt: bool) -> Self {
            RecordReader { frame_reader: FrameReader::at(reader, cursor, spoilt), record_buffer: Vec::new(), within_record: false }
        }

        /// Cursor, and whether the block is spoilt.
        pub fn state(&self) -> (usize, bool) {
            self.frame_reader.state()
        }
    }
}

pub use self::reader::RecordReader;
pub use self::writer::RecordWriter;
