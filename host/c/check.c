/* Calls the library for tests/library_test.py: a case a line on standard input, its answer a line on standard output.
 *
 *   run ROOM LOG                      number place records reply_bytes BUFFER
 *   read PLACE LOG                    number kind unit value bytes_place bytes_length next fault
 *   write KIND UNIT VALUE ROOM BYTES  number written BUFFER
 *   speeds POLES ROOM LOG             number place records ENTRIES
 *   rpm POLES CONFIGURATION1 COUNT    rpm
 *   rpm_by_high_byte BYTE             rpm
 *   words NUMBER                      the number's words
 *
 * LOG, BYTES and BUFFER are in hex, ENTRIES are numbers of 64 bits, and "." is none. As LOG, BYTES or ROOM, "-" is none too,
 * by a pointer that is NULL.
 * Behind an answer stands what should not be: a plain run that differs from emc2305_run, a record that was read and is
 * not written again as it stands, bytes changed before a buffer.
 *
 * The library is not built with a sanitizer. So what is lent to it ends where a page begins that cannot be touched, and
 * what it may only read cannot be written.
 */
#define _DEFAULT_SOURCE /* getline, mmap, MAP_ANONYMOUS */
#include <inttypes.h>
#include <stdbool.h>
#include <stdio.h>
#include <stdlib.h>
#include <string.h>
#include <sys/mman.h>
#include <unistd.h>

#include "cobblehard.h"

enum { FILL = 0xEE, PRESET_8 = 0xA5, PRESET_16 = 0xA5A5 };
static const uint64_t PRESET_64 = 0xA5A5A5A5A5A5A5A5;

/* `length` bytes at the end of `size`, which stand before a page that cannot be touched. */
struct lent {
    uint8_t *bytes;
    size_t length;
    uint8_t *pages;
    size_t size;
};

static void fail(const char *what)
{
    fflush(stdout);
    fprintf(stderr, "check: %s\n", what);
    exit(EXIT_FAILURE);
}

static uint64_t parse(const char *number)
{
    char *end;
    uint64_t parsed = strtoull(number, &end, 10);

    if (end == number || *end != '\0')
        fail("not a number");
    return parsed;
}

static size_t page_size(void)
{
    return (size_t)sysconf(_SC_PAGESIZE);
}

static struct lent lend(size_t length)
{
    size_t page = page_size();
    size_t size = length / page * page + page;
    uint8_t *pages = mmap(NULL, size + page, PROT_READ | PROT_WRITE, MAP_PRIVATE | MAP_ANONYMOUS, -1, 0);

    if (pages == MAP_FAILED || mprotect(pages + size, page, PROT_NONE) != 0)
        fail("no memory");
    memset(pages, FILL, size);
    return (struct lent){pages + size - length, length, pages, size};
}

static struct lent lend_null(void)
{
    return (struct lent){NULL, 0, NULL, 0};
}

/* Room for so many entries of a size. */
static struct lent lend_room(const char *room, size_t size)
{
    return strcmp(room, "-") == 0 ? lend_null() : lend(parse(room) * size);
}

static uint8_t digit(char c)
{
    const char *digits = "0123456789abcdef";
    const char *found = c == '\0' ? NULL : strchr(digits, c);

    if (found == NULL)
        fail("not a hex digit");
    return (uint8_t)(found - digits);
}

/* Bytes that can only be read. */
static struct lent lend_bytes(const char *hex)
{
    size_t length = strcmp(hex, ".") == 0 ? 0 : strlen(hex) / 2;
    struct lent lent;

    if (strcmp(hex, "-") == 0)
        return lend_null();
    lent = lend(length);
    for (size_t i = 0; i < length; i++)
        lent.bytes[i] = (uint8_t)(digit(hex[2 * i]) * 16 + digit(hex[2 * i + 1]));
    if (mprotect(lent.pages, lent.size, PROT_READ) != 0)
        fail("no protection");
    return lent;
}

/* Frees what was lent, and says where the bytes before it were changed. */
static void take_back(struct lent lent)
{
    if (lent.pages == NULL)
        return;
    for (const uint8_t *byte = lent.pages; byte < lent.bytes; byte++) {
        if (*byte != FILL) {
            printf(" changed %td bytes before the buffer", lent.bytes - byte);
            break;
        }
    }
    if (munmap(lent.pages, lent.size + page_size()) != 0)
        fail("not freed");
}

static void print_bytes(struct lent lent)
{
    putchar(' ');
    for (size_t i = 0; i < lent.length; i++)
        printf("%02x", lent.bytes[i]);
    if (lent.length == 0)
        putchar('.');
}

static void print_entries(struct lent lent)
{
    uint64_t entry;

    for (size_t i = 0; i < lent.length; i += sizeof entry) {
        memcpy(&entry, lent.bytes + i, sizeof entry);
        printf(" %" PRIu64, entry);
    }
    if (lent.length == 0)
        fputs(" .", stdout);
}

static bool same_bytes(struct lent a, struct lent b)
{
    return a.length == b.length && (a.length == 0 || memcmp(a.bytes, b.bytes, a.length) == 0);
}

static uint64_t run_number(const uint8_t *log, size_t log_length, uint8_t *replies, size_t replies_length)
{
    return emc2305_run_number(log, log_length, replies, replies_length);
}

/* The runs that return one number, in the order of the whole run's numbers. */
static const struct plain {
    const char *name;
    uint64_t (*run)(const uint8_t *log, size_t log_length, uint8_t *replies, size_t replies_length);
} PLAIN[] = {
    {"emc2305_run_number", run_number},
    {"emc2305_run_place", emc2305_run_place},
    {"emc2305_run_records", emc2305_run_records},
    {"emc2305_run_reply_bytes", emc2305_run_reply_bytes},
};

/* Says where a plain run on a fresh buffer does not give what the whole run gave. */
static void compare_plain(struct plain plain, const char *room, struct lent log, uint64_t answer, struct lent replies)
{
    struct lent fresh = lend_room(room, 1);
    uint64_t given = plain.run(log.bytes, log.length, fresh.bytes, fresh.length);

    if (given != answer || !same_bytes(fresh, replies)) {
        printf(" but %s %" PRIu64, plain.name, given);
        print_bytes(fresh);
    }
    take_back(fresh);
}

static void check_run(const char *room, const char *hex)
{
    struct lent log = lend_bytes(hex);
    struct lent replies = lend_room(room, 1);
    uint64_t place = PRESET_64, records = PRESET_64, reply_bytes = PRESET_64;
    uint8_t number = emc2305_run(log.bytes, log.length, replies.bytes, replies.length, &place, &records, &reply_bytes);
    const uint64_t answers[] = {number, place, records, reply_bytes};

    printf("%u %" PRIu64 " %" PRIu64 " %" PRIu64, number, place, records, reply_bytes);
    print_bytes(replies);
    for (size_t i = 0; i < sizeof PLAIN / sizeof PLAIN[0]; i++)
        compare_plain(PLAIN[i], room, log, answers[i], replies);
    take_back(replies);
    take_back(log);
}

/* Says where an event that was read is not written as `record`, in a buffer of its length. */
static void compare_written(uint8_t kind, uint8_t unit, uint16_t value, const uint8_t *bytes, size_t bytes_length,
                            const uint8_t *record, size_t length)
{
    struct lent out = lend(length);
    uint64_t written = PRESET_64;
    uint8_t number = eventlog_write(kind, unit, value, bytes, bytes_length, out.bytes, out.length, &written);

    if (number != COBBLEHARD_TAKEN || written != length || memcmp(out.bytes, record, length) != 0) {
        printf(" but written %u %" PRIu64, number, written);
        print_bytes(out);
    }
    take_back(out);
}

static void check_read(const char *place, const char *hex)
{
    struct lent log = lend_bytes(hex);
    uint64_t from = parse(place);
    uint8_t kind = PRESET_8, unit = PRESET_8;
    uint16_t value = PRESET_16;
    uint64_t bytes_place = PRESET_64, bytes_length = PRESET_64, next = PRESET_64;
    uint8_t number = eventlog_read(log.bytes, log.length, from, &kind, &unit, &value, &bytes_place, &bytes_length,
                                   &next);

    printf("%u %u %u %u %" PRIu64 " %" PRIu64 " %" PRIu64, number, kind, unit, value, bytes_place, bytes_length, next);
    printf(" %" PRIu64, eventlog_fault(log.bytes, log.length, from));
    if (number == COBBLEHARD_TAKEN && kind != COBBLEHARD_END)
        compare_written(kind, unit, value, log.bytes + bytes_place, bytes_length, log.bytes + from, next - from);
    take_back(log);
}

static void check_write(const char *kind, const char *unit, const char *value, const char *room, const char *hex)
{
    struct lent bytes = lend_bytes(hex);
    struct lent out = lend_room(room, 1);
    uint64_t written = PRESET_64;
    uint8_t number = eventlog_write((uint8_t)parse(kind), (uint8_t)parse(unit), (uint16_t)parse(value), bytes.bytes,
                                    bytes.length, out.bytes, out.length, &written);

    printf("%u %" PRIu64, number, written);
    print_bytes(out);
    take_back(out);
    take_back(bytes);
}

static void check_speeds(const char *poles, const char *room, const char *hex)
{
    struct lent log = lend_bytes(hex);
    struct lent figures = lend_room(room, sizeof(uint64_t));
    uint64_t place = PRESET_64, records = PRESET_64;
    uint8_t number = emc2305_speeds(log.bytes, log.length, parse(poles), (uint64_t *)(void *)figures.bytes,
                                    figures.length / sizeof(uint64_t), &place, &records);

    printf("%u %" PRIu64 " %" PRIu64, number, place, records);
    print_entries(figures);
    take_back(figures);
    take_back(log);
}

static void check_rpm(const char *poles, const char *configuration1, const char *count)
{
    printf("%" PRIu32, emc2305_rpm(parse(poles), (uint8_t)parse(configuration1), (uint16_t)parse(count)));
}

static void check(char *line)
{
    char *words[6];
    size_t count = 0;

    for (char *word = strtok(line, " \n"); word != NULL && count < 6; word = strtok(NULL, " \n"))
        words[count++] = word;
    if (count == 3 && strcmp(words[0], "run") == 0)
        check_run(words[1], words[2]);
    else if (count == 3 && strcmp(words[0], "read") == 0)
        check_read(words[1], words[2]);
    else if (count == 6 && strcmp(words[0], "write") == 0)
        check_write(words[1], words[2], words[3], words[4], words[5]);
    else if (count == 4 && strcmp(words[0], "speeds") == 0)
        check_speeds(words[1], words[2], words[3]);
    else if (count == 4 && strcmp(words[0], "rpm") == 0)
        check_rpm(words[1], words[2], words[3]);
    else if (count == 2 && strcmp(words[0], "rpm_by_high_byte") == 0)
        printf("%" PRIu32, emc2305_rpm_by_high_byte((uint8_t)parse(words[1])));
    else if (count == 2 && strcmp(words[0], "words") == 0)
        fputs(cobblehard_words((uint8_t)parse(words[1])), stdout);
    else
        fail("not a case");
    putchar('\n');
}

int main(void)
{
    char *line = NULL;
    size_t room = 0;

    setvbuf(stdout, NULL, _IOLBF, 0); /* a fault loses no answer before it */
    while (getline(&line, &room, stdin) != -1)
        check(line);
    free(line);
    return EXIT_SUCCESS;
}
