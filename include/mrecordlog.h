/* The exported entries of the queue log. Each returns 0, or the number of its refusal (1 to 15, 17 and 18, docs/REFUSALS.md); then all values that it
 * gives by a pointer are 0. A slice is a pointer and its length; no two slices may overlap, and none may be null, also where its length is 0.
 *
 * Lent to each call: the log, the scratch, and the queue memory: names, payloads, the record table `entries`, the further table `largest` and the table of queues
 * `table`. The tables may have any length. Of `entries` the whole entries of 32 bytes count, at most 1,024; of `largest` the whole numbers of 8 bytes, at most 1,024;
 * of `table` the whole words of 8 bytes, at most 196, which are 4 and 3 for each queue; what lies behind them is never touched. A record, a queue, a name or a payload
 * for which there is no room is refused 12. docs/LAYOUT.md gives the layout of the tables, and says when the memory is arranged (refusal 6): what replay or a call
 * left, lent again unchanged, always is. Queue memory of zeros holds no queues. A further table with fewer numbers than `entries` has entries is 6 for every call,
 * question, copy and replay; what it holds is no matter to replay.
 *
 * The numbers: 1 the log is under one block or over 4,096; 2 a name is over 65,535 bytes; 3 a name is not UTF-8; 4 position 2^64-1 is named; 5 over 128 payloads, or
 * lengths that do not sum to the bytes given; 6 the memory, the reader or the write position is not arranged; 7 the name is held; 8 it is not held; 9 the position is
 * past; 10 a payload would take position 2^64-1; 11 a record is longer than the scratch; 12 the queue memory is full; 13 the log is full; 14 replay meets a position
 * that cannot be taken; 15 the target is too short for the whole copy, of mrecordlog_copy alone; 17 the report
 * has counted 65,535 logs, of mrecordlog_report_feed alone; 18 a width that does not fit, of the two entries for byte planes alone.
 */
#ifndef MRECORDLOG_H
#define MRECORDLOG_H

#include <stddef.h>
#include <stdint.h>

#ifdef __cplusplus
extern "C" {
#endif

/* Sizes. A log has 1 to MRECORDLOG_MAX_BLOCKS blocks; tables as long as MRECORDLOG_ENTRIES_LEN(n), MRECORDLOG_LARGEST_LEN(n) and MRECORDLOG_TABLE_LEN(n) hold n records
 * and n queues. */
#define MRECORDLOG_BLOCK_LEN 32768
#define MRECORDLOG_MAX_BLOCKS 4096
#define MRECORDLOG_MAX_NAME_LEN 65535
#define MRECORDLOG_MAX_PAYLOADS 128
#define MRECORDLOG_MAX_QUEUES 64
#define MRECORDLOG_MAX_RECORDS 1024
#define MRECORDLOG_ENTRIES_LEN(records) (32 * (size_t)(records))
#define MRECORDLOG_LARGEST_LEN(records) (8 * (size_t)(records))
#define MRECORDLOG_TABLE_LEN(queues) (8 * (4 + 3 * (size_t)(queues)))

/* The numbers by name. */
#define MRECORDLOG_LOG_SIZE 1
#define MRECORDLOG_NAME_TOO_LONG 2
#define MRECORDLOG_NOT_UTF8 3
#define MRECORDLOG_LAST_POSITION_NAMED 4
#define MRECORDLOG_PAYLOADS_WRONG 5
#define MRECORDLOG_NOT_ARRANGED 6
#define MRECORDLOG_QUEUE_HELD 7
#define MRECORDLOG_QUEUE_MISSING 8
#define MRECORDLOG_POSITION_PAST 9
#define MRECORDLOG_NO_POSITION_LEFT 10
#define MRECORDLOG_RECORD_TOO_LONG 11
#define MRECORDLOG_MEMORY_FULL 12
#define MRECORDLOG_LOG_FULL 13
#define MRECORDLOG_REPLAY_POSITION 14
#define MRECORDLOG_TARGET_TOO_SHORT 15
#define MRECORDLOG_REPORT_FULL 17
#define MRECORDLOG_WIDTH_WRONG 18

/* A call that writes, and is not refused, gives the bytes that it wrote to the log in two counts: frame_bytes, the headers and data of its record's frames, and
 * padding_bytes, the zeros that filled the block before the first of them, at most 6. Their sum is how far the write position moved. */

/* An empty queue with start 0. */
uint64_t mrecordlog_create(uint8_t *log, size_t log_len, size_t *write_position,
                           uint8_t *scratch, size_t scratch_len,
                           uint8_t *names, size_t names_len,
                           uint8_t *payloads, size_t payloads_len,
                           uint8_t *entries, size_t entries_len,
                           uint8_t *largest, size_t largest_len,
                           uint8_t *table, size_t table_len,
                           const uint8_t *name, size_t name_len,
                           uint64_t *frame_bytes, uint64_t *padding_bytes);

/* A queue and its records taken away. */
uint64_t mrecordlog_delete(uint8_t *log, size_t log_len, size_t *write_position,
                           uint8_t *scratch, size_t scratch_len,
                           uint8_t *names, size_t names_len,
                           uint8_t *payloads, size_t payloads_len,
                           uint8_t *entries, size_t entries_len,
                           uint8_t *largest, size_t largest_len,
                           uint8_t *table, size_t table_len,
                           const uint8_t *name, size_t name_len,
                           uint64_t *frame_bytes, uint64_t *padding_bytes);

/* A mark (02, Ticket 11) with its shift number and the desk's clock reading, which is stored as 8 little-endian bytes. It changes no queue and is lent no queue
 * memory; it is refused by 1, 6 (the write position), 11 and 13. */
uint64_t mrecordlog_mark(uint8_t *log, size_t log_len, size_t *write_position,
                         uint8_t *scratch, size_t scratch_len,
                         uint64_t shift, uint64_t clock,
                         uint64_t *frame_bytes, uint64_t *padding_bytes);

/* The records of a queue up to and with a position evicted. */
uint64_t mrecordlog_truncate(uint8_t *log, size_t log_len, size_t *write_position,
                             uint8_t *scratch, size_t scratch_len,
                             uint8_t *names, size_t names_len,
                             uint8_t *payloads, size_t payloads_len,
                             uint8_t *entries, size_t entries_len,
                             uint8_t *largest, size_t largest_len,
                             uint8_t *table, size_t table_len,
                             const uint8_t *name, size_t name_len,
                             uint64_t through,
                             uint64_t *evicted, uint64_t *frame_bytes, uint64_t *padding_bytes);

/* Payloads behind the records of a queue: end to end in the run, each as long as its length says. named 0: no position is named, else `position` is.
 * has_last 0: no payload took a position (the empty answer, which counts 0 and 0), else 1 and the last position. Over 128 payloads is 5; a log with longer appends
 * is still read. */
uint64_t mrecordlog_append(uint8_t *log, size_t log_len, size_t *write_position,
                           uint8_t *scratch, size_t scratch_len,
                           uint8_t *names, size_t names_len,
                           uint8_t *payloads, size_t payloads_len,
                           uint8_t *entries, size_t entries_len,
                           uint8_t *largest, size_t largest_len,
                           uint8_t *table, size_t table_len,
                           const uint8_t *name, size_t name_len,
                           uint64_t named, uint64_t position,
                           const uint8_t *run, size_t run_len,
                           const uint64_t *lens, size_t lens_len,
                           uint64_t *has_last, uint64_t *last_position,
                           uint64_t *frame_bytes, uint64_t *padding_bytes);

/* The first record of a range of positions of a queue. lower_kind: 1 from, 2 after, else no bound; upper_kind: 1 through, 2 before, else no bound.
 * found 1: its position, and its payload is payloads[start .. start + length]; found 0: none. */
uint64_t mrecordlog_range(const uint8_t *names, size_t names_len,
                          const uint8_t *payloads, size_t payloads_len,
                          const uint8_t *entries, size_t entries_len,
                          const uint8_t *largest, size_t largest_len,
                          const uint8_t *table, size_t table_len,
                          const uint8_t *name, size_t name_len,
                          uint64_t lower_kind, uint64_t lower, uint64_t upper_kind, uint64_t upper,
                          uint64_t *found, uint64_t *position, uint64_t *start, uint64_t *length);

/* The start and the next position of a queue; the last position is next - 1, or none where next is 0. */
uint64_t mrecordlog_positions(const uint8_t *names, size_t names_len,
                              const uint8_t *payloads, size_t payloads_len,
                              const uint8_t *entries, size_t entries_len,
                              const uint8_t *largest, size_t largest_len,
                              const uint8_t *table, size_t table_len,
                              const uint8_t *name, size_t name_len,
                              uint64_t *start, uint64_t *next);

/* The largest payload that a queue holds: found 1, its length and its position, the lowest among equals; found 0: the queue is empty. */
uint64_t mrecordlog_largest(const uint8_t *names, size_t names_len,
                            const uint8_t *payloads, size_t payloads_len,
                            const uint8_t *entries, size_t entries_len,
                            const uint8_t *largest, size_t largest_len,
                            const uint8_t *table, size_t table_len,
                            const uint8_t *name, size_t name_len,
                            uint64_t *found, uint64_t *length, uint64_t *position);

/* The lowest block of the log, counted from 0, that any held record has: that of its log record's first frame header. found 1 and the block; found 0: none is held.
 * It names no queue, and meets 6 alone. */
uint64_t mrecordlog_first_block(const uint8_t *names, size_t names_len,
                                const uint8_t *payloads, size_t payloads_len,
                                const uint8_t *entries, size_t entries_len,
                                const uint8_t *largest, size_t largest_len,
                                const uint8_t *table, size_t table_len,
                                uint64_t *found, uint64_t *block);

/* The queues that the records of the log give, from no queues whatever the queue memory holds. lost: the number of corruption answers. lost_bytes: what is lost in
 * bytes: frames, header and data, with a wrong checksum; from each unreadable header or over-long frame to its block's end; and sound frames of no record handed out,
 * so that it may be above 0 where lost is 0. resumed: the place in the log where a writer resumes: take it as the write position of the next call. It may lie behind
 * the place where the last call ended, by the padding due there or by what is damaged. Refused: all three are 0; 1, and 6 for a short further table, leave scratch and
 * memory as they were, the others leave no queues. */
uint64_t mrecordlog_replay(const uint8_t *log, size_t log_len,
                           uint8_t *scratch, size_t scratch_len,
                           uint8_t *names, size_t names_len,
                           uint8_t *payloads, size_t payloads_len,
                           uint8_t *entries, size_t entries_len,
                           uint8_t *largest, size_t largest_len,
                           uint8_t *table, size_t table_len,
                           uint64_t *lost, uint64_t *lost_bytes, uint64_t *resumed);

/* A log cut down to what is held: the target's whole blocks are zeroed, and the queues written into it in byte order of their names, for each a touch at its start and
 * an append for each record held. Gives where the last frame ends, or 0; writing may go on there. It meets 1 (of the target), 6 (of the queue memory and the further
 * table), 11 and 15, and then leaves the target and the scratch as they were. The queue memory stays. */
uint64_t mrecordlog_copy(uint8_t *target, size_t target_len,
                         uint8_t *scratch, size_t scratch_len,
                         const uint8_t *names, size_t names_len,
                         const uint8_t *payloads, size_t payloads_len,
                         const uint8_t *entries, size_t entries_len,
                         const uint8_t *largest, size_t largest_len,
                         const uint8_t *table, size_t table_len,
                         uint64_t *end);

/* One read. The reader is block, cursor and spoilt (0, or any other number for a spoilt block), all 0 when fresh. It moves on in place; a refusal leaves it as it was.
 * kind: 0 end of log; 1 truncate, 2 touch, 3 delete, 4 append (the record's type byte), its position, where its name lies in the scratch, and for an append where its items
 * lie there (8-byte position, 4-byte length, data, one behind the other); 5 wrong checksum, 6 unknown type, 7 length past the block, 8 a record that cannot be decoded:
 * the corruption answers; 9 a mark (type byte 5), its shift number as the position, and where its 8 bytes of body lie as items_start and items_len. Values that a kind has
 * no use for are 0. */
uint64_t mrecordlog_read(const uint8_t *log, size_t log_len,
                         uint8_t *scratch, size_t scratch_len,
                         size_t *block, size_t *cursor, uint64_t *spoilt,
                         uint64_t *kind, uint64_t *position,
                         uint64_t *name_start, uint64_t *name_len,
                         uint64_t *items_start, uint64_t *items_len);

/* The checksum of a frame: CRC-32 (IEEE 802.3) over its type byte, then its data. */
uint32_t mrecordlog_checksum(uint8_t frame_type, const uint8_t *data, size_t data_len);

/* Readings of `width` bytes each, stored by byte planes: first byte 0 of every reading, then byte 1, and so on. The log does not mark such payloads.
 * 18, the only refusal: the width is outside 1 to 64 or does not divide payload_len, or target_len is not payload_len; the target is then as before. */
uint64_t mrecordlog_to_planes(const uint8_t *payload, size_t payload_len, uint64_t width, uint8_t *target, size_t target_len);

/* The readings that a payload of planes holds: the inverse, with the same refusal. */
uint64_t mrecordlog_from_planes(const uint8_t *payload, size_t payload_len, uint64_t width, uint8_t *target, size_t target_len);

/* A report over a box of cards: 12 little-endian numbers of 8 bytes each, 96 bytes in all: logs fed; right and wrong frames of type Full, First, Middle, Last;
 * unreadable headers; over-long frames; bytes of data in sound frames. Zeros are the empty report. docs/LAYOUT.md says when a report is arranged: what a feeding
 * left always is.
 *
 * Counts the frames of a log, by the reading of frames alone, up to its first end of log. 1: the log is under one block or over 4,096; 6: the report is not arranged, or
 * not 96 bytes long; 17: it has counted 65,535 logs. A refusal leaves the report as it was. */
uint64_t mrecordlog_report_feed(uint8_t *report, size_t report_len, const uint8_t *log, size_t log_len);

/* The mean data length of the sound frames that a report counts: found 1, and whole + remainder / count; found 0 where there are none. 6: the report is not
 * arranged. */
uint64_t mrecordlog_report_mean(const uint8_t *report, size_t report_len,
                                uint64_t *found, uint64_t *whole, uint64_t *remainder, uint64_t *count);

#ifdef __cplusplus
}
#endif

#endif
