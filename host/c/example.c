/* Shows how to use the library: lists the records of a log, runs the chip over it and prints what the run gave, and the speeds of
 * the fans that have samples.
 *
 *   example [FILE]
 *
 * Without a file it takes the log below. It fails where the file cannot be read or the run is stopped by a refusal.
 */
#include <inttypes.h>
#include <stdbool.h>
#include <stdio.h>
#include <stdlib.h>

#include "cobblehard.h"

static const uint8_t EXAMPLE[] = {
    0x9C, 0x46, 0x01, 0x01, 0x2C,             /* power-on, at the bus address 2Ch */
    0x9C, 0x46, 0x05, 0x03, 0x58, 0x30, 0x80, /* write 80h to register 30h, the Setting of fan 1 */
    0x9C, 0x46, 0x05, 0x02, 0x59, 0x01,       /* read one byte: the fan spins up, its drive is FFh */
    0x9C, 0x46, 0x03, 0x03, 0x01, 0x00, 0x08, /* a tach sample of fan 1, with the count 2048 */
    0x9C, 0x46, 0x03, 0x03, 0x01, 0xDC, 0x05, /* another one, with the count 1500 */
};

enum { POLES = 2 }; /* of all fans */

static void print_bytes(const uint8_t *bytes, uint64_t length)
{
    for (uint64_t i = 0; i < length; i++)
        printf(" %02X", bytes[i]);
    putchar('\n');
}

static void print_event(uint8_t kind, uint8_t unit, uint16_t value, const uint8_t *bytes, uint64_t length)
{
    switch (kind) {
    case COBBLEHARD_POWER_ON:
        printf("power-on, address %02X\n", unit);
        break;
    case COBBLEHARD_POWER_ON_PART:
        printf("power-on of a part, address %02X, fans %u\n", unit, value);
        break;
    case COBBLEHARD_TICKS:
        printf("%u ticks\n", value);
        break;
    case COBBLEHARD_SAMPLE:
        printf("tach sample of fan %u, count %u\n", unit, value);
        break;
    case COBBLEHARD_WISH:
        printf("loop wish for fan %u, drive %u\n", unit, value);
        break;
    default: /* COBBLEHARD_TRANSFER */
        if (value == COBBLEHARD_READS) {
            printf("read from address %02X, count %u\n", unit, bytes[0]);
        } else {
            printf("write to address %02X:", unit);
            print_bytes(bytes, length);
        }
    }
}

/* Walks the log record by record. A refusal is the end of the walk: nothing tells where a next record would begin. */
static void list_records(const uint8_t *log, size_t length)
{
    for (uint64_t place = 0;;) {
        uint8_t kind, unit;
        uint16_t value;
        uint64_t bytes_place, bytes_length, next;
        uint8_t number = eventlog_read(log, length, place, &kind, &unit, &value, &bytes_place, &bytes_length, &next);

        printf("%" PRIu64 ": ", place);
        if (number != COBBLEHARD_TAKEN) { /* the six numbers were not set */
            printf("refused with %u, %s, at byte %" PRIu64 "\n", number, cobblehard_words(number),
                   eventlog_fault(log, length, place));
            return;
        }
        if (kind == COBBLEHARD_END) {
            printf("end of the log\n");
            return;
        }
        print_event(kind, unit, value, log + bytes_place, bytes_length);
        place = next;
    }
}

/* Whether the run came to the end of the log. */
static bool run_chip(const uint8_t *log, size_t length)
{
    /* The record of a read has six bytes and its reply at most 32, so this is room for all replies. */
    size_t room = length / 6 * 32;
    uint8_t *replies = malloc(room);
    uint64_t place, records, reply_bytes, fault;
    uint8_t number;

    if (replies == NULL && room > 0) {
        fprintf(stderr, "example: no memory for the replies\n");
        return false;
    }
    number = emc2305_run(log, length, replies, room, &place, &records, &reply_bytes);
    printf("number %u: %s\n", number, cobblehard_words(number));
    printf("place %" PRIu64 "\n", place);
    printf("records walked %" PRIu64 "\n", records);
    printf("reply bytes %" PRIu64 ":", reply_bytes);
    print_bytes(replies, reply_bytes); /* those before a stop are good too */
    free(replies);
    fault = eventlog_fault(log, length, place);
    if (fault != COBBLEHARD_NO_FAULT) /* the run stopped at a record that cannot be read */
        printf("faulty byte %" PRIu64 "\n", fault);
    return number == COBBLEHARD_TAKEN;
}

/* Of the whole log, or of what stands before a stop. */
static void print_speeds(const uint8_t *log, size_t length)
{
    uint64_t figures[COBBLEHARD_FIGURES], place, records;
    uint8_t number = emc2305_speeds(log, length, POLES, figures, COBBLEHARD_FIGURES, &place, &records);

    if (number == COBBLEHARD_TOO_MANY_SAMPLES) /* whatever else stops it stopped the run too */
        printf("speeds end at place %" PRIu64 ": %s\n", place, cobblehard_words(number));
    for (int fan = 1; fan <= 5; fan++) {
        const uint64_t *of = figures + 5 * (fan - 1);

        if (of[0] > 0 || of[4] > 0)
            printf("fan %d: samples %" PRIu64 ", RPM lowest %" PRIu64 ", highest %" PRIu64 ", total %" PRIu64
                   ", zero counts %" PRIu64 "\n", fan, of[0], of[1], of[2], of[3], of[4]);
    }
}

/* The whole file, which the caller frees, or NULL. */
static uint8_t *read_file(const char *name, size_t *length)
{
    FILE *file = fopen(name, "rb");
    uint8_t *bytes = NULL;
    size_t room = 0;

    *length = 0;
    while (file != NULL && !feof(file) && !ferror(file)) {
        uint8_t *more = realloc(bytes, room += 65536);
        if (more == NULL)
            break;
        bytes = more;
        *length += fread(bytes + *length, 1, room - *length, file);
    }
    if (file == NULL || !feof(file)) {
        fprintf(stderr, "example: cannot read %s\n", name);
        free(bytes);
        bytes = NULL;
    }
    if (file != NULL)
        fclose(file);
    return bytes;
}

int main(int count, char **arguments)
{
    const uint8_t *log = EXAMPLE;
    size_t length = sizeof EXAMPLE;
    uint8_t *bytes = NULL;
    bool ended;

    if (count > 1) {
        bytes = read_file(arguments[1], &length);
        if (bytes == NULL)
            return EXIT_FAILURE;
        log = bytes;
    }
    list_records(log, length);
    ended = run_chip(log, length);
    print_speeds(log, length);
    free(bytes);
    return ended ? EXIT_SUCCESS : EXIT_FAILURE;
}
