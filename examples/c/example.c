/* Opens a log of one zeroed block, appends, lists the queue by range and asks for its largest payload, opens the log again as a program would that starts anew, reads
 * its records one by one, and copies what is held into a fresh log. */
#include <inttypes.h>
#include <stdio.h>
#include <stdlib.h>
#include <string.h>

#include "mrecordlog.h"

enum { BLOCK = MRECORDLOG_BLOCK_LEN, NAMES = 64, PAYLOADS = 1024, SCRATCH = 256 };
enum { ENTRIES = MRECORDLOG_ENTRIES_LEN(8), LARGEST = MRECORDLOG_LARGEST_LEN(8), TABLE = MRECORDLOG_TABLE_LEN(1) };

static uint8_t block[BLOCK], fresh[BLOCK], scratch[SCRATCH], names[NAMES], payloads[PAYLOADS], entries[ENTRIES], largest[LARGEST], table[TABLE];
static const uint8_t name[] = {'a'};

/* Ends the program where a call was refused. */
static void taken(const char *call, uint64_t refused) {
    if (refused) {
        printf("%s: refused %" PRIu64 "\n", call, refused);
        exit(1);
    }
}

/* The queues of a log, and the place where a writer resumes. */
static size_t open_log(const uint8_t *log) {
    uint64_t lost, lost_bytes, resumed;
    taken("replay", mrecordlog_replay(log, BLOCK, scratch, SCRATCH, names, NAMES, payloads, PAYLOADS, entries, ENTRIES, largest, LARGEST, table, TABLE,
                                      &lost, &lost_bytes, &resumed));
    printf("open: lost bytes %" PRIu64 ", resumed %" PRIu64 "\n", lost_bytes, resumed);
    return (size_t)resumed;
}

/* All records of the queue, each asked for by "after" the one before. */
static void list(void) {
    uint64_t kind = 0, after = 0, found = 1, start, length;
    while (found) {
        taken("range", mrecordlog_range(names, NAMES, payloads, PAYLOADS, entries, ENTRIES, largest, LARGEST, table, TABLE, name, 1, kind, after, 0, 0,
                                        &found, &after, &start, &length));
        kind = 2;
        if (found)
            printf("record %" PRIu64 " '%.*s'\n", after, (int)length, (const char *)payloads + start);
    }
}

/* The largest payload that the queue holds. */
static void tell_largest(void) {
    uint64_t found, length, position;
    taken("largest", mrecordlog_largest(names, NAMES, payloads, PAYLOADS, entries, ENTRIES, largest, LARGEST, table, TABLE, name, 1,
                                        &found, &length, &position));
    if (found)
        printf("largest: %" PRIu64 " bytes, at %" PRIu64 "\n", length, position);
}

/* The records of a log, one read after another. */
static void read_log(const uint8_t *log) {
    size_t reader_block = 0, cursor = 0;
    uint64_t spoilt = 0, kind = 1, position, name_start, name_len, items_start, items_len;
    while (kind) {
        taken("read", mrecordlog_read(log, BLOCK, scratch, SCRATCH, &reader_block, &cursor, &spoilt, &kind, &position, &name_start, &name_len, &items_start, &items_len));
        printf("read: kind %" PRIu64 ", position %" PRIu64 ", %" PRIu64 " bytes of items\n", kind, position, items_len);
    }
}

int main(void) {
    uint64_t frame_bytes, padding_bytes, has_last, last, end;
    const uint64_t lens[] = {3, 0};
    size_t place = open_log(block);
    taken("create", mrecordlog_create(block, BLOCK, &place, scratch, SCRATCH, names, NAMES, payloads, PAYLOADS, entries, ENTRIES, largest, LARGEST, table, TABLE, name, 1,
                                      &frame_bytes, &padding_bytes));
    printf("create: bytes %" PRIu64 " + %" PRIu64 "\n", frame_bytes, padding_bytes);
    taken("append", mrecordlog_append(block, BLOCK, &place, scratch, SCRATCH, names, NAMES, payloads, PAYLOADS, entries, ENTRIES, largest, LARGEST, table, TABLE, name, 1,
                                      0, 0, (const uint8_t *)"one", 3, lens, 2, &has_last, &last, &frame_bytes, &padding_bytes));
    printf("append: last %" PRIu64 ", bytes %" PRIu64 " + %" PRIu64 "\n", last, frame_bytes, padding_bytes);
    list();
    tell_largest();
    open_log(block);
    list();
    read_log(block);
    taken("copy", mrecordlog_copy(fresh, BLOCK, scratch, SCRATCH, names, NAMES, payloads, PAYLOADS, entries, ENTRIES, largest, LARGEST, table, TABLE, &end));
    printf("copy: %" PRIu64 " bytes used\n", end);
    open_log(fresh);
    list();
    return 0;
}
