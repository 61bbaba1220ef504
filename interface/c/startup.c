/* Plans a start-up: how many reads a recovery makes at most over a region of N bytes, and how many it makes over the
 * one that jardolento_costliest writes. By the theorem that README.md names both are the same; where they are not, it
 * says so.
 *
 *     cc -std=c99 startup.c -L ../../crates/jardolento/out -l jardolento -o startup
 *     ./startup 4 1 65536 1048576
 *
 * A box's start-up takes so many times what a read takes on its bus. The page holds all of N, as the theorem asks.
 */
#include "jardolento.h"

#include <inttypes.h>
#include <stdio.h>
#include <stdlib.h>
#include <string.h>

static const char usage[] = "usage: startup A R N...\n";
static const char help[] =
    "\n"
    "    A     the program unit, a power of two from 1 to 256\n"
    "    R     the read unit, a power of two from 1 to 4096\n"
    "    N     a region's length, from 0 to 16777216 bytes\n"
    "\n"
    "For each N it prints how many reads of the region a recovery makes at most (bound), and how many it makes over\n"
    "the region that jardolento_costliest writes (cost). The status is 0, or 1 if they differ or something else is\n"
    "wrong.\n";

/* Says what is wrong with an argument, behind the lines that are printed already. Answers 0, as the caller does. */
static int faulty(const char *name, const char *value, const char *fault)
{
    fflush(stdout);
    fprintf(stderr, "startup: %s is '%s', %s\n", name, value, fault);
    return 0;
}

/* Whether all that was printed has gone out. */
static int is_written(void)
{
    if (fflush(stdout) == 0 && !ferror(stdout))
        return 1;
    fprintf(stderr, "startup: standard output cannot be written\n");
    return 0;
}

/* Reads decimal digits and nothing else. */
static int read_number(const char *text, size_t *number)
{
    const char *digit;

    *number = 0;
    for (digit = text; *digit >= '0' && *digit <= '9'; digit++) {
        size_t value = (size_t)(*digit - '0');

        if (*number > (SIZE_MAX - value) / 10)
            return 0;
        *number = *number * 10 + value;
    }
    return digit != text && *digit == '\0';
}

static int is_taken(size_t len, size_t program_size, size_t read_size)
{
    return jardolento_geometry_new(len, program_size, read_size).refused.number == 0;
}

/* Looks at all arguments before anything is printed, each beside others that will do: refusal 1 does not say which of
 * the three it is for. */
static int read_arguments(char **arguments, size_t *program_size, size_t *read_size)
{
    size_t len;

    if (!read_number(arguments[0], program_size) || !is_taken(0, *program_size, 1))
        return faulty("A", arguments[0], "and not a power of two from 1 to 256");
    if (!read_number(arguments[1], read_size) || !is_taken(0, 1, *read_size))
        return faulty("R", arguments[1], "and not a power of two from 1 to 4096");
    for (arguments += 2; *arguments != NULL; arguments++) {
        if (!read_number(*arguments, &len) || !is_taken(len, 1, 1))
            return faulty("N", *arguments, "and not a length from 0 to 16777216");
    }
    return 1;
}

/* The most reads that a recovery makes: two for each shortest record that fits, and those of the bytes behind them. */
static uint64_t bound(size_t len, size_t program_size)
{
    size_t shortest = (16 + program_size - 1) / program_size * program_size + program_size;
    size_t behind = len % shortest;

    return 2 * (uint64_t)(len / shortest) + (behind == 0 ? 0 : behind < 12 ? 1 : 2);
}

/* Writes the costliest region and recovers it from 0 to its ending. Answers whether that is clean. */
static int recover(uint8_t *region, size_t len, uint8_t *page, size_t page_len, size_t program_size, size_t read_size,
                   uint64_t *reads)
{
    struct jardolento_recovery_step step;

    if (jardolento_costliest(program_size, read_size, region, len).number != 0)
        return 0;
    step.state = jardolento_recovery_new(jardolento_geometry_new(len, program_size, read_size).geometry);
    do
        step = jardolento_recovery_next(step.state, region, len, page, page_len);
    while (step.is_found);
    *reads = step.state.reads;
    return step.state.ending == JARDOLENTO_CLEAN;
}

/* Prints the line of a region's length. Answers whether bound and cost are the same. */
static int plan(const char *argument, size_t program_size, size_t read_size)
{
    uint64_t cost = 0;
    uint64_t most;
    uint8_t *region;
    uint8_t *page;
    size_t page_len;
    size_t len;
    int good;

    read_number(argument, &len);
    most = bound(len, program_size);
    page_len = (len + read_size - 1) / read_size * read_size;
    /* One byte more, since a buffer of none may be NULL. */
    region = calloc(len + 1, 1);
    page = calloc(page_len + 1, 1);
    good = region != NULL && page != NULL;
    if (!good) {
        faulty("N", argument, "and there is no memory for region and page");
    } else {
        good = recover(region, len, page, page_len, program_size, read_size, &cost);
        printf("%8zu  %8" PRIu64 "  %8" PRIu64 "\n", len, most, cost);
        if (!good)
            faulty("N", argument, "and the written region is not read to a clean ending");
        else if (cost != most)
            good = faulty("N", argument, "and bound and cost differ");
    }
    free(region);
    free(page);
    return good;
}

int main(int argc, char **argv)
{
    size_t program_size;
    size_t read_size;
    int good = 1;
    int n;

    if (argc == 2 && (strcmp(argv[1], "--help") == 0 || strcmp(argv[1], "-h") == 0)) {
        printf("%s%s", usage, help);
        return is_written() ? 0 : 1;
    }
    if (argc < 4) {
        fputs(usage, stderr);
        return 1;
    }
    if (!read_arguments(argv + 1, &program_size, &read_size))
        return 1;
    printf("%8s  %8s  %8s\n", "N", "bound", "cost");
    for (n = 3; n < argc; n++)
        good = plan(argv[n], program_size, read_size) && good;
    return is_written() && good ? 0 : 1;
}
