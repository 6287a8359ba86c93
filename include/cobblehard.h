/* Cobblehard: a proved model of the EMC2305 fan controller, and of the event logs that drive it.
 *
 * Link with libcobblehard.a, which `tools/build cobblehard` makes in target/staticlib/; a program that calls emc2305_speeds links with
 * libcobblehard_speeds.a too, which `tools/build cobblehard_speeds` makes. They are for x86-64, where size_t and places have 64 bits.
 *
 * A slice is a pointer and a length; where the length is 0 the pointer may be anything, NULL too. A pointer to a number is never NULL.
 * What is lent to one call does not overlap, numbers included; an empty slice overlaps nothing. Of a lent buffer only the bytes that are
 * said to be laid change. No function keeps a pointer, allocates, or has a state of its own: calls may run beside each other.
 *
 * Names begin with what they are of, the log (eventlog_) or the device (emc2305_); constants and the rest with COBBLEHARD_ or cobblehard_.
 * A program that has such a name itself can change it in its copy of the library, by objcopy --redefine-sym OLD=NEW on the archive; it
 * includes this file between #define OLD NEW and #undef OLD.
 */
#ifndef COBBLEHARD_H
#define COBBLEHARD_H

#include <stddef.h>
#include <stdint.h>

#ifdef __cplusplus
extern "C" {
#endif

/* Goes up whenever a function or a constant of this file changes, or what a function of the library answers. Version 1 had no macro, and gave
 * 5 for what is 5, 9, 10 and 11 now. Version 2 had no speeds. Version 3 had the part with five fans alone: no kind 6, no 15 and no 21. */
#define COBBLEHARD_VERSION 4

/* Parts. Kind 1 powers on an EMC2305, which has five fans; kind 6 powers on an EMC2301, EMC2302 or EMC2303, by its number of fans, 1, 2 or 3.
 * Each power-on sets everything back, and the part is that of the last one. A fan above the part's number is absent. Its registers are
 * undefined: they read 00h and store nothing. Its bits of 25h and 26h stay 0, and that of 29h is stored and does nothing. A sample or a wish
 * for it is refused with 21. All else is as in an EMC2305.
 *
 * So are the identity bytes. The parts' own data sheets were not at hand, so the bytes are those of Table 5.1 in the EMC2305's, and FDh, the
 * product, shows 34h in every part. Linux's driver expects 35h, 36h or 37h there of the smaller parts: a driver that
 * goes by FDh takes each of them for an EMC2305. */

/* Numbers given back. A run walks on after 6, 7 and 21, and no function here returns them. There is no 12, and none from 16 to 20. */
enum cobblehard_number {
    COBBLEHARD_TAKEN = 0,             /* taken */
    COBBLEHARD_CUT_SHORT = 1,         /* the log ends inside a record */
    COBBLEHARD_WRONG_MARK = 2,        /* a mark byte is wrong: of as many as are there */
    COBBLEHARD_UNKNOWN_KIND = 3,      /* unknown kind */
    COBBLEHARD_WRONG_LENGTH = 4,      /* length not allowed for the kind */
    COBBLEHARD_WRONG_FAN = 5,         /* no such fan: outside 1..5 */
    COBBLEHARD_NO_POWER = 6,          /* event before any power-on: any but a power-on */
    COBBLEHARD_ELSEWHERE = 7,         /* transfer to another address */
    COBBLEHARD_NO_ROOM = 8,           /* buffer too short: for the reply or record */
    COBBLEHARD_WRONG_COUNT = 9,       /* count out of range: of a tach sample, above 8191; of a wish to be written, a drive above 255 */
    COBBLEHARD_WRONG_ADDRESS = 10,    /* address out of range: above 127 */
    COBBLEHARD_WRONG_BYTES = 11,      /* length or clocked number of a transfer out of range: a read's length byte is not 2, or its clocked
                                         number outside 1..32; of a transfer to be written also more than 32 bytes */
    COBBLEHARD_WRONG_POLES = 13,      /* poles out of range: outside 1..4 */
    COBBLEHARD_TOO_MANY_SAMPLES = 14, /* too many samples of a fan: above 65,535 in a report of speeds */
    COBBLEHARD_WRONG_FANS = 15,       /* number of fans out of range: of a part, other than 1, 2 or 3; five fans are kind 1 */
    COBBLEHARD_ABSENT_FAN = 21        /* the part has no such fan: a sample or a wish for a fan above the part's number */
};

/* The kinds of events. */
enum cobblehard_kind {
    COBBLEHARD_END = 0, /* no event: the end of the log */
    COBBLEHARD_POWER_ON = 1, /* of an EMC2305 */
    COBBLEHARD_TICKS = 2,
    COBBLEHARD_SAMPLE = 3,
    COBBLEHARD_WISH = 4,
    COBBLEHARD_TRANSFER = 5,
    COBBLEHARD_POWER_ON_PART = 6 /* of an EMC2301, EMC2302 or EMC2303 */
};

/* The directions of a transfer. */
enum cobblehard_direction {
    COBBLEHARD_WRITES = 0,
    COBBLEHARD_READS = 1
};

/* What eventlog_fault answers where there is no fault. */
#define COBBLEHARD_NO_FAULT UINT64_MAX

/* How many figures a report of speeds has: five for each of five fans, whatever the part. */
#define COBBLEHARD_FIGURES 25

/* A number in words, in a string that lives as long as the program. The words are for people and promise nothing: go by the number.
 * It is here and not in the library, which is lent slices and gives numbers, and has no data of its own to point to. */
static inline const char *cobblehard_words(uint8_t number)
{
    switch (number) {
    case COBBLEHARD_TAKEN: return "taken";
    case COBBLEHARD_CUT_SHORT: return "the log ends inside a record";
    case COBBLEHARD_WRONG_MARK: return "a mark byte is wrong";
    case COBBLEHARD_UNKNOWN_KIND: return "unknown kind";
    case COBBLEHARD_WRONG_LENGTH: return "length not allowed for the kind";
    case COBBLEHARD_WRONG_FAN: return "no such fan";
    case COBBLEHARD_NO_POWER: return "event before any power-on";
    case COBBLEHARD_ELSEWHERE: return "transfer to another address";
    case COBBLEHARD_NO_ROOM: return "buffer too short";
    case COBBLEHARD_WRONG_COUNT: return "count out of range";
    case COBBLEHARD_WRONG_ADDRESS: return "address out of range";
    case COBBLEHARD_WRONG_BYTES: return "length or clocked number of a transfer out of range";
    case COBBLEHARD_WRONG_POLES: return "poles out of range";
    case COBBLEHARD_TOO_MANY_SAMPLES: return "too many samples of a fan";
    case COBBLEHARD_WRONG_FANS: return "number of fans out of range";
    case COBBLEHARD_ABSENT_FAN: return "the part has no such fan";
    default: return "no such number";
    }
}

/* Runs an unpowered chip over a whole log.
 *
 * The replies of the read transfers are laid in `replies`, one after the other from its front; the bytes past them stay.
 * A read transfer takes 6 bytes of a log and has a reply of at most 32, so that log_length / 6 * 32 bytes are always enough.
 *
 * The run walks on after 6, 7 and 21, which it does not return. It stops at 1 to 5, 8 to 11 and 15 and keeps the replies before the stop; of a
 * reply that has no room nothing is laid. Returns the last number, 0 at the end of the log, and sets
 *   *place        the place in the log of the stopping record, or the end;
 *   *records      how many records were walked, those with 6, 7 or 21 included and the stopping one not;
 *   *reply_bytes  how many bytes of `replies` were laid.
 * After a stop at 1 to 5, 9 to 11 or 15, eventlog_fault(log, log_length, *place) tells the byte.
 */
uint8_t emc2305_run(const uint8_t *log, size_t log_length, uint8_t *replies, size_t replies_length,
                    uint64_t *place, uint64_t *records, uint64_t *reply_bytes);

/* The same run, for hosts that pass no pointers to numbers: each returns one of the four. Each is a run of its own and lays the replies too. */
uint8_t emc2305_run_number(const uint8_t *log, size_t log_length, uint8_t *replies, size_t replies_length);
uint64_t emc2305_run_place(const uint8_t *log, size_t log_length, uint8_t *replies, size_t replies_length);
uint64_t emc2305_run_records(const uint8_t *log, size_t log_length, uint8_t *replies, size_t replies_length);
uint64_t emc2305_run_reply_bytes(const uint8_t *log, size_t log_length, uint8_t *replies, size_t replies_length);

/* The speed of a tach sample, in whole RPM, is
 *
 *   60 x 32768 x (edges - 1) x m / (poles x count)   in one division, rounded down, with
 *
 *   edges   3, 5, 7 or 9, as bits 3..4 of Configuration 1 are 0, 1, 2 or 3
 *   m       1, 2, 4 or 8, as bits 5..6 of Configuration 1 are 0, 1, 2 or 3
 *   poles   1 to 4, a plain number to divide by, given once for all fans
 *   count   the sample's own, as it stands in the log; a sample with count 0 has no speed
 *
 * Configuration 1 is register 32h of fan 1, 42h of fan 2, and so on to 72h, at the time of the sample. Power-on sets it to 2Bh: m is 2 and
 * edges 5, so that the speed is 15728640 / (poles x count).
 */

/* Reports the speeds over a whole log, exactly: an unpowered chip is run over it, and every sample that it takes counts for its fan.
 *
 * Each fan has five figures, those of fan i from figures[5 * (i - 1)] on:
 *   +0  the number of its samples with a count above 0
 *   +1  the lowest of their speeds
 *   +2  the highest
 *   +3  the total, to which each adds its whole RPM; at most 65,535 samples of at most 125,829,120 RPM fit in 64 bits
 *   +4  the number of its samples with count 0, which are in none of the other figures
 * The first four are 0 where the fan has no sample with a speed. There are always five fans' figures, whatever the part, and they are of the
 * whole log: no power-on sets them to 0, whatever its kind and address. A sample that is refused, before any power-on or for a fan that the
 * part does not have, counts nowhere.
 *
 * `figures_length` is a number of entries. As many of the 25 figures are laid as `figures` has room for, from its front; entries past the
 * 25th stay as they were. So the room stops no report, and 8 is never returned: replies are not laid at all.
 *
 * Like a run it walks on after 6, 7 and 21, and sets *place and *records. Returns
 *   0                    at the end of the log
 *   13                   for poles outside 1..4, before the log is read: all figures are 0, and so are *place and *records
 *   14                   at the 65,536th sample of a fan, those with count 0 included and refused ones not
 *   1 to 5, 9 to 11, 15  at a record that cannot be read, a 65,536th sample too; eventlog_fault tells the byte
 * After any but 13 the figures are those of the records before *place.
 */
uint8_t emc2305_speeds(const uint8_t *log, size_t log_length, uint64_t poles, uint64_t *figures, size_t figures_length,
                       uint64_t *place, uint64_t *records);

/* The speed of one sample, by the fan's Configuration 1 and the sample's count. It is 0 where the count is 0 or poles outside 1..4, and only
 * there: the least of a count up to 8191 is 120. Counts above, which no sample has, go by the formula too. */
uint32_t emc2305_rpm(uint64_t poles, uint8_t configuration1, uint16_t count);

/* A fixed table for two poles, five edges and m = 2, by the high byte of a fan's reading (registers 3Eh, 4Eh and so on to 7Eh): 245760 /
 * high_byte, rounded down; 0 for the byte 0. It is rough: the high byte is the count / 32, rounded down. The table has the speed of the count
 * 32 x high_byte, and the true speed is that or lower; by the byte 0 the count is below 32, and nothing is said. The report does not use it. */
uint32_t emc2305_rpm_by_high_byte(uint8_t high_byte);

/* An event as numbers, by its kind:
 *
 *   kind               unit            value                bytes
 *   1 power-on         address 0..127  -                    -
 *   2 ticks            -               count                -
 *   3 sample           fan 1..5        count 0..8191        -
 *   4 wish             fan 1..5        drive 0..255         -
 *   5 transfer         address 0..127  0 write, 1 read      the bytes sent, at most 32; of a read one byte, how many the host clocks, 1..32
 *   6 part's power-on  address 0..127  number of fans 1..3  -
 *
 * eventlog_read sets what stands as - to 0, and eventlog_write does not look at it.
 */

/* Reads the record at a place of the log.
 *
 * Returns 0 and sets all six numbers: the event's kind, unit and value; *bytes_place and *bytes_length, where its bytes lie in the log;
 * *next, the place after the record. With log + *bytes_place and *bytes_length for its bytes, eventlog_write makes the same record again.
 * At the exact end of the log it returns 0 with *kind 0, *next the place, and 0 in the others.
 * Returns 1 to 5, 9 to 11 or 15 for a refusal, 1 also for a place past the end, and leaves all six as they were. Of faults the first in this
 * order decides: 2; 1 for fewer than four bytes; 3; 4; 1 for a payload cut short; then the field whose byte comes first.
 */
uint8_t eventlog_read(const uint8_t *log, size_t log_length, uint64_t place, uint8_t *kind, uint8_t *unit, uint16_t *value,
                      uint64_t *bytes_place, uint64_t *bytes_length, uint64_t *next);

/* The place in the log of the first faulty byte of what stands at a place, by the number that eventlog_read returns for it:
 *
 *   1   where the first missing byte would stand: the end of the log, or the place itself where that is past the end
 *   2   the first wrong mark byte
 *   3   the kind byte
 *   4   the length byte
 *   5   the fan byte
 *   9   the count's low byte
 *   10  the address byte
 *   11  the length byte of a read where that is not 2, else the byte with the clocked number
 *   15  the byte with the number of fans, which is the second of the payload
 *
 * Where there is no fault, at a record that eventlog_read takes and at the end of the log, it returns COBBLEHARD_NO_FAULT. For the place
 * UINT64_MAX, which is past the end of any log, the answer is that number too: whether there is a fault, eventlog_read tells.
 */
uint64_t eventlog_fault(const uint8_t *log, size_t log_length, uint64_t place);

/* Writes the record of an event at the front of `out`; a record has at most 37 bytes.
 *
 * Returns 0 and sets *written to the record's length. Otherwise `out` and *written stay as they were, and it returns the first of these:
 *   3   a kind other than 1 to 6
 *   11  a transfer with more than 32 bytes, or a read with another number of bytes than one
 *   10  an address above 127, or a direction above 1, which shares its byte
 *   15  a number of fans other than 1, 2 or 3, above 255 too
 *   5   a fan outside 1..5
 *   9   a count above 8191, or a wish's drive above 255
 *   11  a clocked number outside 1..32
 *   8   `out` is too short
 */
uint8_t eventlog_write(uint8_t kind, uint8_t unit, uint16_t value, const uint8_t *bytes, size_t bytes_length, uint8_t *out,
                       size_t out_length, uint64_t *written);

#ifdef __cplusplus
}
#endif

#endif
