//! The entries as include/mrecordlog.h has them. Each slice is a pointer and its length; none may be null, and no two may overlap.

#[rustfmt::skip]
extern "C" {
    pub fn mrecordlog_create(log: *mut u8, log_len: usize, write_position: *mut usize, scratch: *mut u8, scratch_len: usize,
        names: *mut u8, names_len: usize, payloads: *mut u8, payloads_len: usize, entries: *mut u8, entries_len: usize,
        largest: *mut u8, largest_len: usize, table: *mut u8, table_len: usize,
        name: *const u8, name_len: usize, frame_bytes: *mut u64, padding_bytes: *mut u64) -> u64;
    pub fn mrecordlog_delete(log: *mut u8, log_len: usize, write_position: *mut usize, scratch: *mut u8, scratch_len: usize,
        names: *mut u8, names_len: usize, payloads: *mut u8, payloads_len: usize, entries: *mut u8, entries_len: usize,
        largest: *mut u8, largest_len: usize, table: *mut u8, table_len: usize,
        name: *const u8, name_len: usize, frame_bytes: *mut u64, padding_bytes: *mut u64) -> u64;
    pub fn mrecordlog_truncate(log: *mut u8, log_len: usize, write_position: *mut usize, scratch: *mut u8, scratch_len: usize,
        names: *mut u8, names_len: usize, payloads: *mut u8, payloads_len: usize, entries: *mut u8, entries_len: usize,
        largest: *mut u8, largest_len: usize, table: *mut u8, table_len: usize,
        name: *const u8, name_len: usize, through: u64, evicted: *mut u64, frame_bytes: *mut u64, padding_bytes: *mut u64) -> u64;
    pub fn mrecordlog_append(log: *mut u8, log_len: usize, write_position: *mut usize, scratch: *mut u8, scratch_len: usize,
        names: *mut u8, names_len: usize, payloads: *mut u8, payloads_len: usize, entries: *mut u8, entries_len: usize,
        largest: *mut u8, largest_len: usize, table: *mut u8, table_len: usize,
        name: *const u8, name_len: usize, named: u64, position: u64, run: *const u8, run_len: usize, lens: *const u64, lens_len: usize,
        has_last: *mut u64, last_position: *mut u64, frame_bytes: *mut u64, padding_bytes: *mut u64) -> u64;
    pub fn mrecordlog_mark(log: *mut u8, log_len: usize, write_position: *mut usize, scratch: *mut u8, scratch_len: usize, shift: u64, clock: u64,
        frame_bytes: *mut u64, padding_bytes: *mut u64) -> u64;
    pub fn mrecordlog_range(names: *const u8, names_len: usize, payloads: *const u8, payloads_len: usize, entries: *const u8, entries_len: usize,
        largest: *const u8, largest_len: usize, table: *const u8, table_len: usize, name: *const u8, name_len: usize, lower_kind: u64, lower: u64, upper_kind: u64, upper: u64,
        found: *mut u64, position: *mut u64, start: *mut u64, length: *mut u64) -> u64;
    pub fn mrecordlog_positions(names: *const u8, names_len: usize, payloads: *const u8, payloads_len: usize, entries: *const u8, entries_len: usize,
        largest: *const u8, largest_len: usize, table: *const u8, table_len: usize, name: *const u8, name_len: usize, start: *mut u64, next: *mut u64) -> u64;
    pub fn mrecordlog_largest(names: *const u8, names_len: usize, payloads: *const u8, payloads_len: usize, entries: *const u8, entries_len: usize,
        largest: *const u8, largest_len: usize, table: *const u8, table_len: usize, name: *const u8, name_len: usize,
        found: *mut u64, length: *mut u64, position: *mut u64) -> u64;
    pub fn mrecordlog_first_block(names: *const u8, names_len: usize, payloads: *const u8, payloads_len: usize, entries: *const u8, entries_len: usize,
        largest: *const u8, largest_len: usize, table: *const u8, table_len: usize, found: *mut u64, block: *mut u64) -> u64;
    pub fn mrecordlog_replay(log: *const u8, log_len: usize, scratch: *mut u8, scratch_len: usize,
        names: *mut u8, names_len: usize, payloads: *mut u8, payloads_len: usize, entries: *mut u8, entries_len: usize,
        largest: *mut u8, largest_len: usize, table: *mut u8, table_len: usize,
        lost: *mut u64, lost_bytes: *mut u64, resumed: *mut u64) -> u64;
    pub fn mrecordlog_copy(target: *mut u8, target_len: usize, scratch: *mut u8, scratch_len: usize,
        names: *const u8, names_len: usize, payloads: *const u8, payloads_len: usize, entries: *const u8, entries_len: usize,
        largest: *const u8, largest_len: usize, table: *const u8, table_len: usize,
        end: *mut u64) -> u64;
    pub fn mrecordlog_read(log: *const u8, log_len: usize, scratch: *mut u8, scratch_len: usize, block: *mut usize, cursor: *mut usize, spoilt: *mut u64,
        kind: *mut u64, position: *mut u64, name_start: *mut u64, name_len: *mut u64, items_start: *mut u64, items_len: *mut u64) -> u64;
    pub fn mrecordlog_checksum(frame_type: u8, data: *const u8, data_len: usize) -> u32;
    pub fn mrecordlog_to_planes(payload: *const u8, payload_len: usize, width: u64, target: *mut u8, target_len: usize) -> u64;
    pub fn mrecordlog_from_planes(payload: *const u8, payload_len: usize, width: u64, target: *mut u8, target_len: usize) -> u64;
    pub fn mrecordlog_report_feed(report: *mut u8, report_len: usize, log: *const u8, log_len: usize) -> u64;
    pub fn mrecordlog_report_mean(report: *const u8, report_len: usize, found: *mut u64, whole: *mut u64, remainder: *mut u64, count: *mut u64) -> u64;
}
