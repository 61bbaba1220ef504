/* Tries the calls at their limits: settings, seals, pages, refusals 5, 18 and 24, counts, reads and the costliest
 * region, and loops over what is refused.
 *
 *     cc -std=c99 limits.c -L ../../crates/jardolento/out -l jardolento -o limits
 *     ./limits
 *
 * Says which check does not hold, and ends with status 1 then.
 */
#include "jardolento.h"

#include <stdio.h>
#include <string.h>

#define CHECK(holds) check((holds), #holds, __LINE__)

/* The largest count that an opening goes on from. */
#define MOST ((uint64_t)1 << 62)

/* The shortest record for a program unit of 4, by hand: kind 6, sequence 0, no payload. */
static const uint8_t shortest[20] = {
    0x57, 0x4D, 1, 6, 0, 0, 0, 0, 0, 0, 0x67, 0x16, /* header */
    0x81, 0x7B, 0x5A, 0x6C,                         /* frame check */
    0x01, 0x7B, 0x5A, 0x6C                          /* slot */
};

static int failed;

static void check(int holds, const char *text, int line)
{
    if (holds)
        return;
    fprintf(stderr, "line %d: %s\n", line, text);
    failed = 1;
}

static int is_settings(size_t bytes, size_t program_size, size_t read_size)
{
    static const struct jardolento_geometry none;
    struct jardolento_settings settings = jardolento_geometry_new(bytes, program_size, read_size);

    if (settings.refused.number == 0)
        return settings.geometry.bytes == bytes && settings.geometry.program_size == program_size &&
               settings.geometry.read_size == read_size;
    CHECK(settings.refused.number == JARDOLENTO_SETTINGS);
    CHECK(memcmp(&settings.geometry, &none, sizeof none) == 0);
    return 0;
}

/* 32 bits would make 4 of the wide ones. */
static void settings(void)
{
    const size_t wide = (size_t)0xFFFFFFFF + 5;

    CHECK(is_settings(0, 1, 1));
    CHECK(is_settings(16777216, 256, 4096));
    CHECK(!is_settings(16777217, 4, 1));
    CHECK(!is_settings(wide, 4, 1));
    CHECK(!is_settings(20, wide, 1));
    CHECK(!is_settings(20, 4, wide));
    CHECK(!is_settings(20, 512, 1));
    CHECK(!is_settings(20, 4, 8192));
    CHECK(!is_settings(20, 3, 1));
    CHECK(!is_settings(20, 4, 0));
}

static void seals(void)
{
    static const uint8_t counted[] = {1, 2, 3, 4, 1, 2, 3, 4};
    static const uint8_t full[] = {0x7F, 0x7F, 0xFF};
    uint8_t slot[8];

    jardolento_seal(0x04030281, slot, 8);
    CHECK(memcmp(slot, counted, 8) == 0);
    memset(slot, 0xFF, 8);
    jardolento_seal(0xFFFFFFFF, slot, 2);
    CHECK(memcmp(slot, full, 3) == 0);
    jardolento_seal(0, slot, 0);
    CHECK(memcmp(slot, full, 3) == 0);
}

/* Settings that were made up: each loop ends at its first step, which leaves the state open. */
static void loops(void)
{
    struct jardolento_geometry geometry = {20, 3, 1};
    struct jardolento_recovery_step step;
    struct jardolento_scan_step scan;
    uint8_t region[20] = {0};
    uint8_t page[20];

    step.state = jardolento_recovery_new(geometry);
    do
        step = jardolento_recovery_next(step.state, region, sizeof region, page, sizeof page);
    while (step.is_found);
    CHECK(step.refused.number == JARDOLENTO_SETTINGS);
    CHECK(step.state.ending == JARDOLENTO_OPEN);

    scan.state = jardolento_scan_new(3);
    do
        scan = jardolento_scan_next(scan.state, region, sizeof region);
    while (scan.is_found);
    CHECK(scan.refused.number == JARDOLENTO_SETTINGS);
    CHECK(scan.state.stopped == 0);
}

/* The longest record, appended and read through pages that just do and just do not. */
static void pages(void)
{
    static uint8_t region[JARDOLENTO_LONGEST_RECORD];
    static uint8_t page[JARDOLENTO_PAGE_BYTES];
    static uint8_t free[65536];
    struct jardolento_record record = {0};
    struct jardolento_journal journal;
    struct jardolento_advanced step;
    struct jardolento_opening opening;

    memset(region, 0xFF, sizeof region);
    journal = jardolento_open(256, 4096, region, sizeof region, page, sizeof page).journal;
    CHECK(journal.phase == JARDOLENTO_READY);

    record.kind = JARDOLENTO_RUN_COMPLETED;
    step = jardolento_stage(journal, record, free, 65536, region, sizeof region, page, sizeof page);
    CHECK(step.refused.number == JARDOLENTO_LENGTH_OUT_OF_BOUNDS);
    step = jardolento_stage(journal, record, free, 65535, region, sizeof region, page, JARDOLENTO_LONGEST_RECORD - 1);
    CHECK(step.refused.number == JARDOLENTO_LENGTH_OUT_OF_BOUNDS);
    record.kind = JARDOLENTO_TIMER_SCHEDULED;
    record.clock_kind = 3;
    step = jardolento_stage(journal, record, free, 0, region, sizeof region, page, sizeof page);
    CHECK(step.refused.number == JARDOLENTO_LENGTH_OUT_OF_BOUNDS);
    CHECK(jardolento_encoded_len(record, free, 0, 4).refused.number == JARDOLENTO_MALFORMED);

    /* Something else has written the slot's last byte: that comes before the short page, and nothing is programmed. */
    record.kind = JARDOLENTO_RUN_COMPLETED;
    region[sizeof region - 1] = 0xFE;
    step = jardolento_stage(journal, record, free, 65535, region, sizeof region, page, JARDOLENTO_LONGEST_RECORD - 1);
    CHECK(step.refused.number == JARDOLENTO_NOT_ERASED && step.journal.phase == JARDOLENTO_READY);
    CHECK(step.refused.has_place == 1 && step.refused.place == sizeof region - 1);
    CHECK(region[0] == 0xFF && region[sizeof region - 1] == 0xFE);
    region[sizeof region - 1] = 0xFF;

    step = jardolento_stage(journal, record, free, 65535, region, sizeof region, page, JARDOLENTO_LONGEST_RECORD);
    CHECK(step.refused.number == 0 && step.journal.phase == JARDOLENTO_STAGED);
    step = jardolento_payload_barrier(step.journal, region, sizeof region);
    CHECK(step.refused.number == 0 && step.journal.phase == JARDOLENTO_CONFIRMED);
    step = jardolento_commit(step.journal, region, sizeof region);
    CHECK(step.refused.number == 0 && step.journal.phase == JARDOLENTO_READY);
    CHECK(step.written.programmed_bytes == JARDOLENTO_LONGEST_RECORD);

    opening = jardolento_open(256, 512, region, sizeof region, page, JARDOLENTO_LONGEST_RECORD);
    CHECK(opening.refused.number == 0);
    opening = jardolento_open(256, 1024, region, sizeof region, page, JARDOLENTO_LONGEST_RECORD);
    CHECK(opening.refused.number == JARDOLENTO_PAGE_TOO_SMALL);
    CHECK(opening.refused.needed == JARDOLENTO_LONGEST_RECORD);
    opening = jardolento_open(256, 4096, region, sizeof region, page, JARDOLENTO_PAGE_BYTES - 1);
    CHECK(opening.refused.number == JARDOLENTO_PAGE_TOO_SMALL);
    opening = jardolento_open(256, 4096, region, sizeof region, page, JARDOLENTO_PAGE_BYTES);
    CHECK(opening.refused.number == 0);
}

/* The first refusal of a recovery over the region, through a page that takes the tail in chunks. */
static struct jardolento_refused first_refusal(const uint8_t *region, size_t len)
{
    static uint8_t page[21];
    struct jardolento_recovery_step step;

    step.state = jardolento_recovery_new(jardolento_geometry_new(len, 4, 1).geometry);
    do {
        step = jardolento_recovery_next(step.state, region, len, page, sizeof page);
    } while (step.is_found);
    return step.refused;
}

static struct jardolento_refused first_scan_refusal(const uint8_t *journal, size_t len)
{
    struct jardolento_scan_step step;

    step.state = jardolento_scan_new(4);
    do {
        step = jardolento_scan_next(step.state, journal, len);
    } while (step.is_found);
    return step.refused;
}

static int is_at(struct jardolento_refused refused, uint8_t number, uint8_t has_place, uint32_t place)
{
    return refused.number == number && refused.has_place == has_place && refused.place == place;
}

/* Which byte spoils the tail, or keeps a record from being skipped; a header that it spoils has no place. */
static void places(void)
{
    static uint8_t region[64];
    struct jardolento_record record = {0};

    memset(region, 0xFF, sizeof region);
    record.kind = JARDOLENTO_TIMER_FIRED;
    CHECK(jardolento_encode(record, region, 0, 4, region + 20, 20).bytes == 20);
    memset(region + 36, 0xFF, 4);
    memmove(region, region + 20, 20);
    CHECK(is_at(first_refusal(region, sizeof region), 0, 0, 0));

    region[60] = 0;
    region[63] = 0;
    CHECK(is_at(first_refusal(region, sizeof region), JARDOLENTO_INTEGRITY_FAILED, 1, 60));
    CHECK(is_at(first_scan_refusal(region, sizeof region), JARDOLENTO_INTEGRITY_FAILED, 1, 60));
    region[39] = 0xFE;
    CHECK(is_at(first_refusal(region, sizeof region), JARDOLENTO_UNSEALED, 1, 39));
    CHECK(is_at(first_scan_refusal(region, sizeof region), JARDOLENTO_UNSEALED, 1, 39));
    region[10] = 0;
    CHECK(is_at(first_refusal(region, sizeof region), JARDOLENTO_INTEGRITY_FAILED, 0, 0));
    CHECK(is_at(first_scan_refusal(region, sizeof region), JARDOLENTO_INTEGRITY_FAILED, 0, 0));
}

/* In the header's order. */
static struct jardolento_written counts(uint64_t payload, uint64_t programmed, uint64_t operations, uint64_t barriers,
                                        uint64_t uncommitted)
{
    struct jardolento_written written;

    written.payload_bytes = payload;
    written.programmed_bytes = programmed;
    written.program_operations = operations;
    written.barriers = barriers;
    written.uncommitted_appends = uncommitted;
    return written;
}

static int are(struct jardolento_written x, struct jardolento_written y)
{
    return memcmp(&x, &y, sizeof x) == 0;
}

/* A single count above the most is refused, behind 1 and before 3, and the page stays. */
static void counts_handed(void)
{
    struct jardolento_written most = counts(MOST, MOST, MOST, MOST, MOST);
    struct jardolento_opening opening;
    uint8_t region[20];
    uint8_t page[20] = {0};
    size_t n;

    memset(region, 0xFF, sizeof region);
    for (n = 0; n < 5; n++) {
        uint64_t each[5] = {MOST, MOST, MOST, MOST, MOST};
        struct jardolento_written above;

        each[n] += 1;
        above = counts(each[0], each[1], each[2], each[3], each[4]);
        opening = jardolento_open_with(above, 4, 1, region, sizeof region, page, sizeof page);
        CHECK(opening.refused.number == JARDOLENTO_COUNT_TOO_LARGE);
        CHECK(opening.journal.geometry.bytes == 0 && are(opening.journal.written, counts(0, 0, 0, 0, 0)));
        CHECK(page[0] == 0 && memcmp(page, page + 1, sizeof page - 1) == 0);
        opening = jardolento_open_with(above, 3, 1, region, sizeof region, page, sizeof page);
        CHECK(opening.refused.number == JARDOLENTO_SETTINGS);
        opening = jardolento_open_with(above, 4, 1, region, sizeof region, page, 0);
        CHECK(opening.refused.number == JARDOLENTO_COUNT_TOO_LARGE);
    }
    opening = jardolento_open_with(most, 4, 1, region, sizeof region, page, 0);
    CHECK(opening.refused.number == JARDOLENTO_PAGE_TOO_SMALL);
    opening = jardolento_open_with(most, 4, 1, region, sizeof region, page, sizeof page);
    CHECK(opening.refused.number == 0 && are(opening.journal.written, most));
    CHECK(page[0] == 0xFF);
}

/* A journal that had these counts, with a record of 20 bytes staged. */
static struct jardolento_journal staged(struct jardolento_written written, uint8_t region[20])
{
    static const uint8_t free[1];
    struct jardolento_record record = {0};
    struct jardolento_journal journal;
    uint8_t page[20];

    memset(region, 0xFF, 20);
    journal = jardolento_open(4, 1, region, 20, page, sizeof page).journal;
    CHECK(are(journal.written, counts(0, 0, 0, 0, 0)));
    journal.written = written;
    record.kind = JARDOLENTO_TIMER_FIRED;
    return jardolento_stage(journal, record, free, 0, region, 20, page, sizeof page).journal;
}

/* The journal's counts behind that record's commit, which answers the record's own, whatever the journal's were. */
static struct jardolento_written committed(struct jardolento_journal journal, uint8_t region[20])
{
    struct jardolento_advanced step = jardolento_payload_barrier(journal, region, 20);

    step = jardolento_commit(step.journal, region, 20);
    CHECK(step.refused.number == 0 && are(step.written, counts(0, 20, 2, 2, 0)));
    return step.journal.written;
}

/* Counts go up and stop, and the last goes down and not below 0, where C made that up. */
static void counts_kept(void)
{
    const uint64_t end = UINT64_MAX;
    struct jardolento_journal journal;
    uint8_t region[20];

    journal = staged(counts(1, 2, 3, 4, 5), region);
    CHECK(are(journal.written, counts(1, 18, 4, 4, 6)));
    CHECK(are(committed(journal, region), counts(1, 22, 5, 6, 5)));

    journal = staged(counts(0, 0, 0, 0, 0), region);
    journal.written.uncommitted_appends = 0;
    CHECK(are(committed(journal, region), counts(0, 20, 2, 2, 0)));

    journal = staged(counts(end, end - 19, end - 1, end - 1, end), region);
    CHECK(are(journal.written, counts(end, end - 3, end, end - 1, end)));
    CHECK(are(committed(journal, region), counts(end, end, end, end, end - 1)));

    CHECK(are(jardolento_written_plus(counts(end, 1, end, 3, end), counts(1, end, end, 4, 0)),
              counts(end, end, end, 7, end)));
    CHECK(are(jardolento_written_plus(counts(0, 0, 0, 0, end), counts(0, 0, 0, 0, 1)), counts(0, 0, 0, 0, end)));
    CHECK(jardolento_overhead_bytes(counts(1, end, 0, 0, 0)) == end - 1);
    CHECK(jardolento_overhead_bytes(counts(2, 1, 0, 0, 0)) == 0);
}

/* A first step over a region of one record, through so long a page, by a recovery that had made so many reads. */
static struct jardolento_recovery_step step_behind(uint64_t reads, size_t page_len)
{
    uint8_t region[20];
    uint8_t page[20];
    struct jardolento_recovery state = jardolento_recovery_new(jardolento_geometry_new(20, 4, 1).geometry);

    CHECK(state.reads == 0);
    state.reads = reads;
    memcpy(region, shortest, 20);
    return jardolento_recovery_next(state, region, sizeof region, page, page_len);
}

static int is_read(struct jardolento_recovery_step step, uint8_t number, uint64_t reads)
{
    return step.refused.number == number && step.is_found == (number == 0) && step.state.reads == reads;
}

/* A record takes two reads; one that the page does not hold is not made. The count stops, where C made that up. */
static void reads(void)
{
    const uint64_t end = UINT64_MAX;

    CHECK(is_read(step_behind(0, 20), 0, 2));
    CHECK(is_read(step_behind(7, 20), 0, 9));
    CHECK(is_read(step_behind(0, 19), JARDOLENTO_PAGE_TOO_SMALL, 1));
    CHECK(is_read(step_behind(0, 12), JARDOLENTO_PAGE_TOO_SMALL, 1));
    CHECK(is_read(step_behind(0, 11), JARDOLENTO_PAGE_TOO_SMALL, 0));
    CHECK(is_read(step_behind(end - 2, 20), 0, end));
    CHECK(is_read(step_behind(end - 1, 20), 0, end));
    CHECK(is_read(step_behind(end, 20), 0, end));
    CHECK(is_read(step_behind(end, 12), JARDOLENTO_PAGE_TOO_SMALL, end));
}

/* The reads of a recovery over the costliest region of so many bytes, for units of 4 and 1. */
static uint64_t cost(size_t len)
{
    static uint8_t region[16777216];
    static uint8_t page[16777216];
    struct jardolento_recovery_step step;
    uint64_t made;

    CHECK(jardolento_costliest(4, 1, region, len).number == 0);
    step.state = jardolento_recovery_new(jardolento_geometry_new(len, 4, 1).geometry);
    do {
        step = jardolento_recovery_next(step.state, region, len, page, len);
    } while (step.is_found);
    CHECK(step.state.ending == JARDOLENTO_CLEAN);
    /* Once ended, it makes no more. */
    made = step.state.reads;
    step = jardolento_recovery_next(step.state, region, len, page, len);
    CHECK(step.state.reads == made);
    return made;
}

/* The written bytes, what is refused, and the bound where another record or another read begins. */
static void costliest(void)
{
    uint8_t region[64];
    uint8_t before[64];

    memset(region, 0x5A, sizeof region);
    memset(before, 0x5A, sizeof before);
    CHECK(is_at(jardolento_costliest(3, 1, region, sizeof region), JARDOLENTO_SETTINGS, 0, 0));
    CHECK(is_at(jardolento_costliest(4, 8192, region, sizeof region), JARDOLENTO_SETTINGS, 0, 0));
    CHECK(memcmp(region, before, sizeof region) == 0);

    CHECK(is_at(jardolento_costliest(4, 1, region, 63), 0, 0, 0));
    CHECK(memcmp(region, shortest, 20) == 0 && memcmp(region + 20, region, 40) == 0);
    CHECK(region[60] == 0xFF && region[61] == 0xFF && region[62] == 0xFF && region[63] == 0x5A);

    CHECK(cost(0) == 0);
    CHECK(cost(1) == 1);
    CHECK(cost(11) == 1);
    CHECK(cost(12) == 2);
    CHECK(cost(19) == 2);
    CHECK(cost(20) == 2);
    CHECK(cost(21) == 3);
    CHECK(cost(16777216) == 1677722);
}

int main(void)
{
    char version[32];

    sprintf(version, "%d.%d.%d", JARDOLENTO_VERSION_MAJOR, JARDOLENTO_VERSION_MINOR, JARDOLENTO_VERSION_PATCH);
    CHECK(strcmp(JARDOLENTO_VERSION, version) == 0);
    settings();
    seals();
    loops();
    pages();
    places();
    counts_handed();
    counts_kept();
    reads();
    costliest();
    return failed;
}
