/* The journal's calls for C. Link crates/jardolento/out/libjardolento.a, which `rt lib` makes in crates/jardolento.
 *
 * Every call is total: it takes any numbers and any bytes, and answers or refuses. States and answers are structs
 * of numbers, passed by value; a state is the caller's to keep, and a call hands back the next one.
 *
 * Bytes are passed as a pointer and a length. A pointer is not NULL, also where the length is 0, and what it points
 * to stays the caller's. A buffer that a call writes (out, slot, region, page) overlaps no other argument of that call,
 * and nobody else touches it meanwhile; there is no other state, so threads and interrupts may call at once.
 */
#ifndef JARDOLENTO_H
#define JARDOLENTO_H

#include <stddef.h>
#include <stdint.h>

/* The version of library, header and Rust package. It is set here; cargo wants it in interface/rust/Cargo.toml too, and
 * the package's tests compare the two. */
#define JARDOLENTO_VERSION_MAJOR 0
#define JARDOLENTO_VERSION_MINOR 1
#define JARDOLENTO_VERSION_PATCH 0
/* The same as text, "0.1.0" say. */
#define JARDOLENTO_VERSION \
    JARDOLENTO_DOTTED_(JARDOLENTO_VERSION_MAJOR, JARDOLENTO_VERSION_MINOR, JARDOLENTO_VERSION_PATCH)
#define JARDOLENTO_DOTTED_(major, minor, patch) \
    JARDOLENTO_TEXT_(major) "." JARDOLENTO_TEXT_(minor) "." JARDOLENTO_TEXT_(patch)
#define JARDOLENTO_TEXT_(number) #number

/* The longest record, padding and slot included: an output of so many bytes holds every record. */
#define JARDOLENTO_LONGEST_RECORD 66048
/* A page of so many bytes suffices for every region, and is what the theorem on power cuts asks for. Recovery fills a
 * page by whole read units, so that JARDOLENTO_LONGEST_RECORD bytes suffice for read units of up to 512 only. The
 * region's length, rounded up to the read unit, suffices for that region. */
#define JARDOLENTO_PAGE_BYTES 69632

#ifdef __cplusplus
extern "C" {
#endif

/* Why a call declined. number is 0 where it did not. needed and available come with refusals 3 and 13. Where has_place
 * is 1, place is the offset of the first byte that is not 0xFF where all were to be: from the region's start, in a scan
 * from its slice's. It comes with each 18; with a 9 of a recovery or a scan behind twelve erased bytes; and with a 10
 * of theirs for kinds 3, 4 and 6, which would be skipped but for this byte. Else both are 0. */
struct jardolento_refused {
    uint8_t number;
    uint8_t has_place;
    uint32_t needed;
    uint32_t available;
    uint32_t place;
};

/* The numbers of refusals. */
enum {
    JARDOLENTO_SETTINGS = 1,            /* the region's length or a unit is outside its limits */
    JARDOLENTO_WRONG_DEVICE = 2,        /* the region's length is not the one that the state holds */
    JARDOLENTO_PAGE_TOO_SMALL = 3,      /* the page, by whole read units, holds less than `needed` bytes */
    JARDOLENTO_TRUNCATED = 4,           /* the bytes end before the frame that they claim to hold */
    /* a payload above 65,535 bytes; an output or, at stage, a page shorter than the record; at stage also a clock kind
     * other than 1 and 2 */
    JARDOLENTO_LENGTH_OUT_OF_BOUNDS = 5,
    JARDOLENTO_UNKNOWN_KIND = 6,        /* a sealed record of a kind that is not known */
    JARDOLENTO_UNSUPPORTED_VERSION = 7, /* a format version that is not read */
    /* the checks hold, and payload or sequence do not fit the kind; at encode and the lengths a clock kind other than
     * 1 and 2 */
    JARDOLENTO_MALFORMED = 8,
    /* the first two bytes or a check do not match; with a place, erased bytes, and behind them one that is not */
    JARDOLENTO_INTEGRITY_FAILED = 9,
    /* an intact frame that no seal says was committed; with a place, one that a byte behind it keeps from being
     * skipped */
    JARDOLENTO_UNSEALED = 10,
    JARDOLENTO_NOT_APPENDABLE = 11,     /* recovery ended elsewhere than at erased bytes */
    JARDOLENTO_INTERRUPTED = 12,        /* an append is under way, and another one may not begin */
    JARDOLENTO_NO_ROOM = 13,            /* the record takes `needed` bytes, and `available` remain */
    JARDOLENTO_OUT_OF_ORDER = 14,       /* the step is not the one that follows */
    JARDOLENTO_NOT_A_RECORD = 15,       /* kind, sequence or free bytes make no record */
    JARDOLENTO_NOT_ERASED = 18,         /* a byte where the record is to go is not 0xFF */
    JARDOLENTO_COUNT_TOO_LARGE = 24     /* a count to go on from is above 2 to the 62nd */
};

/* The kinds of records. */
enum {
    JARDOLENTO_RUN_STARTED = 1,
    JARDOLENTO_EFFECT_SCHEDULED = 2,
    JARDOLENTO_EFFECT_COMPLETED = 3,
    JARDOLENTO_EFFECT_FAILED = 4,
    JARDOLENTO_TIMER_SCHEDULED = 5,
    JARDOLENTO_TIMER_FIRED = 6,
    JARDOLENTO_RUN_COMPLETED = 7,
    JARDOLENTO_RUN_FAILED = 8,
    JARDOLENTO_VERSION_MARKER = 9
};

/* How a recovery ended; the offset of its state is where. Any other number counts as incomplete. Do not loop by it: see
 * jardolento_recovery_next. */
enum {
    JARDOLENTO_OPEN = 0,       /* it has not, or its settings were refused */
    JARDOLENTO_CLEAN = 1,      /* all is 0xFF from the offset on: a record may be appended there */
    JARDOLENTO_DAMAGED = 2,
    JARDOLENTO_INCOMPLETE = 3, /* page or region would not do, so the records found may not be all */
    JARDOLENTO_NO_SEAL = 4
};

/* How far the append under way has come, and which step follows. After any other number none does. */
enum {
    JARDOLENTO_READY = 0,    /* none is under way; stage */
    JARDOLENTO_STAGED = 1,   /* the body is programmed; payload barrier */
    JARDOLENTO_CONFIRMED = 2 /* the body is confirmed; commit */
};

/* A record. Its free bytes stand beside it. Numbers that its kind lacks are not looked at, and are 0 in an answer. */
struct jardolento_record {
    uint8_t kind;
    uint32_t seq;
    /* run started */
    uint16_t workflow_kind;
    uint16_t workflow_version;
    /* effect scheduled */
    uint16_t activity;
    uint16_t input_len;
    uint32_t input_crc;
    /* timer scheduled */
    uint8_t clock_kind;
    uint64_t deadline;
    uint64_t armed_at;
    /* version marker */
    uint16_t gate;
    uint16_t version;
};

/* A part of the bytes that a record was read from. */
struct jardolento_part {
    size_t place;
    size_t len;
};

/* The region's length, the bytes that are programmed together and the bytes that are read together. Make it with
 * jardolento_geometry_new: assigned to these 32 bits, 4294967300 would silently be 4. */
struct jardolento_geometry {
    uint32_t bytes;
    uint32_t program_size;
    uint32_t read_size;
};

/* Settings, or refusal 1; where it is refused, the geometry is all 0. */
struct jardolento_settings {
    struct jardolento_refused refused;
    struct jardolento_geometry geometry;
};

struct jardolento_length {
    struct jardolento_refused refused;
    size_t bytes;
};

/* What decode answers. Where known is 0, the frame's kind is not known, and of record only kind says something. */
struct jardolento_decoded {
    struct jardolento_refused refused;
    uint8_t known;
    uint8_t format_version;
    struct jardolento_record record;
    struct jardolento_part free;    /* the free bytes */
    struct jardolento_part payload; /* the whole payload, the kind's numbers included */
    size_t frame_len;
    uint32_t frame_crc;
};

/* A sealed record: its offset in the region, and its length with padding and slot. Its parts count from its own
 * start, which is the page's start in a recovery and region + offset in a scan. */
struct jardolento_found {
    size_t offset;
    size_t len;
    struct jardolento_record record;
    struct jardolento_part free;
    struct jardolento_part payload;
};

struct jardolento_recovery {
    struct jardolento_geometry geometry;
    uint32_t offset;
    uint8_t ending;
    /* how many reads of the region it has made since its start, those of headers among them; one that the page did not
     * hold was refused with 3 and not made. It stops at the largest number */
    uint64_t reads;
};

/* A step answers a refusal, a record (is_found is 1), or neither: it has ended. An ended state comes back as it was. */
struct jardolento_recovery_step {
    struct jardolento_recovery state;
    struct jardolento_refused refused;
    uint8_t is_found;
    struct jardolento_found found;
};

struct jardolento_scan {
    size_t align;
    size_t offset;
    uint8_t stopped; /* 0 until the scan has stopped */
};

/* As a recovery's step; a state that has stopped comes back as it was. */
struct jardolento_scan_step {
    struct jardolento_scan state;
    struct jardolento_refused refused;
    uint8_t is_found;
    struct jardolento_found found;
};

/* What was written; each count stops at 18,446,744,073,709,551,615, 2 to the 64th less 1. */
struct jardolento_written {
    uint64_t payload_bytes;
    uint64_t programmed_bytes;
    uint64_t program_operations;
    uint64_t barriers;
    /* one more from stage on, one fewer from commit on: so one more while a record is under way, and for good where its
     * commit never answered */
    uint64_t uncommitted_appends;
};

/* Where the next record goes, what is under way, and what was written: since the opening, and the counts that it was
 * handed. */
struct jardolento_journal {
    struct jardolento_geometry geometry;
    uint32_t offset;
    uint8_t phase;
    uint32_t body_len;
    uint32_t payload_len;
    uint32_t frame_crc;
    struct jardolento_written written;
};

/* Where it is refused, the journal is all 0. */
struct jardolento_opening {
    struct jardolento_refused refused;
    struct jardolento_journal journal;
};

/* Where it is refused, the journal is the one that was given. written is what this record alone wrote; only commit
 * says it, and it has no uncommitted append. */
struct jardolento_advanced {
    struct jardolento_journal journal;
    struct jardolento_refused refused;
    struct jardolento_written written;
};

struct jardolento_finding {
    struct jardolento_refused refused;
    uint8_t is_found;
    uint32_t offset;
};

/* The two checks: RFC 1662's 16-bit FCS and 32-bit FCS. */
uint16_t jardolento_header_check(const uint8_t *bytes, size_t len);
uint32_t jardolento_frame_check(const uint8_t *bytes, size_t len);

/* Lengths: of a payload; of a record with a payload of so many bytes; of a record; of its body, behind which its slot
 * begins; of the frame that a header describes. */
struct jardolento_length jardolento_payload_len(struct jardolento_record record, const uint8_t *free, size_t free_len);
struct jardolento_length jardolento_encoded_len_for(size_t payload_bytes, size_t align);
struct jardolento_length jardolento_encoded_len(struct jardolento_record record, const uint8_t *free, size_t free_len,
                                                size_t align);
struct jardolento_length jardolento_body_len(struct jardolento_record record, const uint8_t *free, size_t free_len,
                                             size_t align);
struct jardolento_length jardolento_frame_len_of(const uint8_t *header, size_t len);

/* Lays a record out, sealed, in the first bytes of out, and answers how many. */
struct jardolento_length jardolento_encode(struct jardolento_record record, const uint8_t *free, size_t free_len,
                                           size_t align, uint8_t *out, size_t out_len);

/* Fills a slot, of whatever length, with the seal of a frame check. */
void jardolento_seal(uint32_t frame_crc, uint8_t *slot, size_t slot_len);

/* The frame at the start of the bytes; its seal is not looked at. */
struct jardolento_decoded jardolento_decode(const uint8_t *bytes, size_t len);

/* The settings of a region: at most 16,777,216 bytes, a program unit that is a power of two up to 256, a read unit that
 * is one up to 4,096. */
struct jardolento_settings jardolento_geometry_new(size_t bytes, size_t program_size, size_t read_size);

/* A recovery from offset 0, and one step of it through a page. Go on exactly while a record is found:
 *
 *     step.state = jardolento_recovery_new(settings.geometry);
 *     for (;;) {
 *         step = jardolento_recovery_next(step.state, region, region_len, page, page_len);
 *         if (!step.is_found)
 *             break;
 *         .. step.found, its payload in the page until the next step ..
 *     }
 *
 * Then step.refused.number says why reading went no further, 0 where all that follows is erased, and step.state.ending
 * how it ended. A refusal is said once; a further step says only that it has ended. Refusal 1 alone leaves the state as
 * it was, its ending open, and comes again: a loop on the ending alone would never end. */
struct jardolento_recovery jardolento_recovery_new(struct jardolento_geometry geometry);
struct jardolento_recovery_step jardolento_recovery_next(struct jardolento_recovery state, const uint8_t *region,
                                                         size_t region_len, uint8_t *page, size_t page_len);

/* A scan of a slice from its start, and one step of it. Loop as over a recovery: refusal 1 leaves `stopped` at 0. */
struct jardolento_scan jardolento_scan_new(size_t align);
struct jardolento_scan_step jardolento_scan_next(struct jardolento_scan state, const uint8_t *journal,
                                                 size_t journal_len);

/* Writes a region of region_len bytes whose recovery makes the most reads, over whatever it held: the shortest records
 * (kind 6, sequence 0), sealed, one right behind the other, and 0xFF behind the last. Let s be 16 rounded up to the
 * program unit, plus that unit, and t be 0, 1 or 2 as region_len mod s is 0, 1 to 11, or more. Through a page of at
 * least region_len bytes, rounded up to the read unit, a recovery from offset 0 to its ending makes at most
 * 2 * (region_len / s) + t reads, whatever stands in the region, and just as many over this one. Opening and find each
 * run such a recovery. Refused with 1 alone, which leaves the region as it was. */
struct jardolento_refused jardolento_costliest(size_t program_size, size_t read_size, uint8_t *region,
                                               size_t region_len);

/* The offset of the latest record of kind 2 to 6 or 9 that carries the sequence. */
struct jardolento_finding jardolento_find(uint32_t seq, size_t program_size, size_t read_size, const uint8_t *region,
                                          size_t region_len, uint8_t *page, size_t page_len);

/* Recovers to the end, and makes a journal that is ready to append there. */
struct jardolento_opening jardolento_open(size_t program_size, size_t read_size, const uint8_t *region,
                                          size_t region_len, uint8_t *page, size_t page_len);

/* The same, and the journal's counts go on from these, so that they count for the box's whole life: keep those of the
 * journal after each stage and each commit, and hand them over at the next start. Where one of the five is above
 * 4,611,686,018,427,387,904, 2 to the 62nd, refusal 24 comes, behind 1 and before anything is read; so no count stops
 * before the next opening. */
struct jardolento_opening jardolento_open_with(struct jardolento_written written, size_t program_size,
                                               size_t read_size, const uint8_t *region, size_t region_len,
                                               uint8_t *page, size_t page_len);

/* The steps of an append: stage programs the body and leaves the whole record in the page; the payload barrier
 * confirms it; commit programs the seal. Stage looks first: where a byte that the record is to take, slot included, is
 * not 0xFF, it refuses, so that what something else has written there stays. After stage and after commit the caller
 * waits until what was programmed is on flash. Both store into the region: where it is mapped read-only they fault, and
 * README.md says what to do then. */
struct jardolento_advanced jardolento_stage(struct jardolento_journal journal, struct jardolento_record record,
                                            const uint8_t *free, size_t free_len, uint8_t *region, size_t region_len,
                                            uint8_t *page, size_t page_len);
struct jardolento_advanced jardolento_payload_barrier(struct jardolento_journal journal, const uint8_t *region,
                                                      size_t region_len);
struct jardolento_advanced jardolento_commit(struct jardolento_journal journal, uint8_t *region, size_t region_len);

/* Two counts together, and the bytes that were programmed beside the payload. */
struct jardolento_written jardolento_written_plus(struct jardolento_written x, struct jardolento_written y);
uint64_t jardolento_overhead_bytes(struct jardolento_written written);

#ifdef __cplusplus
}
#endif

#endif
