/* An example of the journal's calls: lists what an image holds, appends one record in memory, and lists again.
 *
 *     cc -std=c99 example.c -L ../../crates/jardolento/out -l jardolento -o example
 *     ./example ../../examples/update.img [changed.img [counts]]
 *
 * An image is a line with the program unit and the read unit, `4,1` say, and then the bytes of the region. The file
 * that is read stays as it is; a second name, if given, is where the changed image goes. A third is that of the counts,
 * which go on from run to run: five numbers in a line, in the order of struct jardolento_written. They are read where
 * there is such a file, and written after stage and after commit.
 */
#include "jardolento.h"

#include <errno.h>
#include <inttypes.h>
#include <stdio.h>
#include <string.h>

/* The longest region that this example takes. A page of the same length holds every record that fits in it. */
#define LONGEST 32768

struct image {
    uint64_t program_size;
    uint64_t read_size;
    size_t len;
    uint8_t region[LONGEST];
};

static const char *const reasons[] = {
    "not refused",
    "the region's length or a unit is outside its limits",
    "the region's length is not the one that the state holds",
    "the page is too small",
    "the bytes end before the frame that they claim to hold",
    "a payload above 65,535 bytes, a buffer shorter than the record or, at stage, a clock kind other than 1 and 2",
    "a sealed record of a kind that is not known",
    "a format version that is not read",
    "payload or sequence do not fit the kind",
    "the first two bytes or a check do not match",
    "an intact frame that no seal says was committed",
    "recovery ended elsewhere than at erased bytes",
    "an append is under way, and another one may not begin",
    "the record does not fit in what remains of the region",
    "the step is not the one that follows",
    "kind, sequence or free bytes make no record",
    [JARDOLENTO_NOT_ERASED] = "a byte where the record is to go is not 0xFF",
    [JARDOLENTO_COUNT_TOO_LARGE] = "a count to go on from is above 2 to the 62nd",
};

static const char *reason(struct jardolento_refused refused)
{
    if (refused.has_place && refused.number == JARDOLENTO_INTEGRITY_FAILED)
        return "erased bytes, and behind them one that is not";
    if (refused.has_place && refused.number == JARDOLENTO_UNSEALED)
        return "an intact frame that no seal says was committed, and no erased bytes behind it";
    return reasons[refused.number];
}

/* Says which call was refused and why. Answers whether it was. */
static int is_refused(const char *call, struct jardolento_refused refused)
{
    if (refused.number == 0)
        return 0;
    fflush(stdout);
    fprintf(stderr, "%s: refusal %u: %s", call, (unsigned)refused.number, reason(refused));
    if (refused.number == JARDOLENTO_PAGE_TOO_SMALL)
        fprintf(stderr, " (%" PRIu32 " bytes needed)", refused.needed);
    if (refused.number == JARDOLENTO_NO_ROOM)
        fprintf(stderr, " (%" PRIu32 " bytes needed, %" PRIu32 " available)", refused.needed, refused.available);
    if (refused.has_place)
        fprintf(stderr, " (byte %" PRIu32 " is not 0xFF)", refused.place);
    fputc('\n', stderr);
    return 1;
}

/* Says what is wrong with a file, and answers 0, as the caller does. */
static int faulty(const char *path, const char *fault)
{
    fflush(stdout);
    fprintf(stderr, "%s: %s\n", path, fault);
    return 0;
}

/* Reads a number without leading zeros, and the byte that ends it. Which numbers will do, the journal says. */
static int read_number(FILE *file, int end, uint64_t *number)
{
    int c = fgetc(file);
    int is_first = 1;

    for (*number = 0; c >= '0' && c <= '9'; c = fgetc(file)) {
        unsigned digit = (unsigned)(c - '0');

        if (*number > (UINT64_MAX - digit) / 10 || (*number == 0 && !is_first))
            return 0;
        *number = *number * 10 + digit;
        is_first = 0;
    }
    return c == end && !is_first;
}

static int read_image(const char *path, struct image *image)
{
    FILE *file = fopen(path, "rb");
    const char *fault = NULL;

    if (file == NULL)
        return faulty(path, strerror(errno));
    if (!read_number(file, ',', &image->program_size) || !read_number(file, '\n', &image->read_size)) {
        fault = "the first line is not two units, as in 4,1";
    } else {
        image->len = fread(image->region, 1, LONGEST, file);
        if (ferror(file))
            fault = "it cannot be read";
        else if (fgetc(file) != EOF)
            fault = "the region is longer than 32768 bytes";
    }
    fclose(file);
    return fault == NULL || faulty(path, fault);
}

static const char *ending_name(uint8_t ending)
{
    switch (ending) {
    case JARDOLENTO_CLEAN:
        return "clean";
    case JARDOLENTO_DAMAGED:
        return "damaged";
    case JARDOLENTO_NO_SEAL:
        return "unsealed";
    default:
        return "incomplete";
    }
}

/* Prints a line for each record: offset, kind, sequence and payload length. Then how reading ended: where, with which
 * refusal, and how many records of how many bytes were found; or that the settings are refused. Why reading was refused
 * it says on standard error. Answers the highest sequence. */
static uint32_t list(const struct image *image, uint8_t *page)
{
    struct jardolento_settings settings = jardolento_geometry_new(image->len, image->program_size, image->read_size);
    struct jardolento_recovery_step step;
    uint32_t highest = 0;
    size_t records = 0;
    size_t bytes = 0;

    if (settings.refused.number != 0) {
        printf("refused,%u\n", (unsigned)settings.refused.number);
        return highest;
    }
    step.state = jardolento_recovery_new(settings.geometry);
    for (;;) {
        step = jardolento_recovery_next(step.state, image->region, image->len, page, LONGEST);
        if (!step.is_found)
            break;
        printf("%zu,%u,%" PRIu32 ",%zu\n", step.found.offset, (unsigned)step.found.record.kind, step.found.record.seq,
               step.found.payload.len);
        if (step.found.record.seq > highest)
            highest = step.found.record.seq;
        records += 1;
        bytes += step.found.len;
    }
    printf("end,%s,%" PRIu32 ",%u,%zu,%zu\n", ending_name(step.state.ending), step.state.offset,
           (unsigned)step.refused.number, records, bytes);
    is_refused("recovery", step.refused);
    return highest;
}

/* The counts to go on from: all 0 where no file is named, or there is none yet. */
static int read_counts(const char *path, struct jardolento_written *written)
{
    FILE *file;
    int good;

    if (path == NULL)
        return 1;
    file = fopen(path, "rb");
    if (file == NULL)
        return errno == ENOENT || faulty(path, strerror(errno));
    good = read_number(file, ' ', &written->payload_bytes) && read_number(file, ' ', &written->programmed_bytes) &&
           read_number(file, ' ', &written->program_operations) && read_number(file, ' ', &written->barriers) &&
           read_number(file, '\n', &written->uncommitted_appends);
    fclose(file);
    return good || faulty(path, "the first line is not five counts, as in 2 24 2 2 0");
}

/* Keeps the counts, where a file is named. A box sees to it that a cut leaves the old ones or the new. */
static int write_counts(const char *path, const struct jardolento_written *written)
{
    FILE *file;
    int good;

    if (path == NULL)
        return 1;
    file = fopen(path, "wb");
    good = file != NULL;
    if (good) {
        good = fprintf(file, "%" PRIu64 " %" PRIu64 " %" PRIu64 " %" PRIu64 " %" PRIu64 "\n", written->payload_bytes,
                       written->programmed_bytes, written->program_operations, written->barriers,
                       written->uncommitted_appends) > 0;
        good = fclose(file) == 0 && good;
    }
    return good || faulty(path, strerror(errno));
}

/* Appends an effect completed. The record counts once its commit has been made. */
static int append(struct image *image, uint8_t *page, uint32_t seq, const char *counts)
{
    static const uint8_t result[] = {'o', 'k'};
    struct jardolento_written written = {0};
    struct jardolento_record record = {0};
    struct jardolento_opening opening;
    struct jardolento_advanced step;

    if (!read_counts(counts, &written))
        return 0;
    opening = jardolento_open_with(written, image->program_size, image->read_size, image->region, image->len, page,
                                   LONGEST);
    if (is_refused("open", opening.refused))
        return 0;

    record.kind = JARDOLENTO_EFFECT_COMPLETED;
    record.seq = seq;
    step = jardolento_stage(opening.journal, record, result, sizeof result, image->region, image->len, page, LONGEST);
    if (is_refused("stage", step.refused))
        return 0;
    /* Kept before the body goes to a device, so that an append which a cut takes is among those not committed. */
    if (!write_counts(counts, &step.journal.written))
        return 0;
    /* Where the region is a device, wait here until it holds the body, and after the commit until it holds the seal. */
    step = jardolento_payload_barrier(step.journal, image->region, image->len);
    if (is_refused("payload barrier", step.refused))
        return 0;
    step = jardolento_commit(step.journal, image->region, image->len);
    if (is_refused("commit", step.refused) || !write_counts(counts, &step.journal.written))
        return 0;

    printf("appended at %" PRIu32 ": %" PRIu64 " bytes, %" PRIu64 " of them payload\n", opening.journal.offset,
           step.written.programmed_bytes, step.written.payload_bytes);
    return 1;
}

static int write_image(const char *path, const struct image *image)
{
    FILE *file = fopen(path, "wb");
    int good = file != NULL;

    if (good) {
        good = fprintf(file, "%" PRIu64 ",%" PRIu64 "\n", image->program_size, image->read_size) > 0;
        good = fwrite(image->region, 1, image->len, file) == image->len && good;
        good = fclose(file) == 0 && good;
    }
    return good || faulty(path, strerror(errno));
}

int main(int argc, char **argv)
{
    static struct image image;
    static uint8_t page[LONGEST];
    uint32_t highest;

    if (argc < 2 || argc > 4) {
        fprintf(stderr, "usage: example IMAGE [CHANGED [COUNTS]]\n");
        return 1;
    }
    if (!read_image(argv[1], &image))
        return 1;
    highest = list(&image, page);
    if (!append(&image, page, highest + 1, argc == 4 ? argv[3] : NULL))
        return 1;
    list(&image, page);
    if (argc > 2 && !write_image(argv[2], &image))
        return 1;
    return 0;
}
