/*
 * The rank unit for C: sheets and requests as bytes, ranks as numbers. Link with librankunit_c.a.
 *
 * Each function has a contract, which is proved for every input; what stands here is what the contracts say, in words. No
 * function keeps anything between calls, allocates, or does anything undefined. The caller owes this: a pointer with a number
 * after it points at so many bytes or elements, aligned for their type, and is not null even where that number is 0; memory
 * that a call writes overlaps no other memory that it was given.
 *
 * A sheet is a list as bytes, all numbers big-endian: byte 0 is the version, 1; bytes 1 to 4 count the bytes after them; byte
 * 5 is the kind, 1 for delays and 2 for link levels; then come the elements, 4 bytes a delay, and 8 a link level, the level in
 * two's complement and then the link. Delays are in order by microseconds, link levels by level and then by link; equal
 * elements may stand side by side.
 */
#ifndef RANKUNIT_H
#define RANKUNIT_H

#include <stddef.h>
#include <stdint.h>

/* A delay in microseconds. */
struct rankunit_delay {
    uint32_t micros;
};

/* The level of a link in hundredths of dBm, with the link's number. */
struct rankunit_link_level {
    int32_t level;
    uint32_t link;
};

/*
 * What a sheet comes to.
 *   refusal  0: it was read. Else why it was not, and then the list is as it was:
 *            1 it has under 6 bytes; 2 its version is not 1; 3 its count differs from the bytes after it; 4 its kind is not
 *            the one wanted; 5 its body is no whole number of elements, or has over 65,536; 6 an element is before its
 *            predecessor; 7 the list has less room than the sheet has elements. The first of these that holds decides, and no
 *            other number is answered.
 *   count    how many elements were read, from the list's start on; the rest of the list is as it was. 0 where it was refused.
 *   spot     with 6 the number, counted from 1, of the first element that is before its predecessor. Else 0.
 */
struct rankunit_reading {
    uint32_t refusal;
    uint32_t count;
    uint64_t spot;
};

/*
 * What a request comes to.
 *   refusal  0: the element was found. Else why it was not, checked in this order: 11 the request has under 4 bytes; 1 to 7
 *            of A's sheet, as above; 1 to 7 of B's; 11 the rank is 0 or above the number of all elements. No other number is
 *            answered.
 *   layer    1 where a sheet was refused, 3 where the run was, with 11. Else 0.
 *   seat     whose sheet was refused: 1 A's, 2 B's. Else 0.
 *   result   the element of the rank, in microseconds. 0 where the request was refused, and so are the next two.
 *   count    how many verdicts the run made, at most 17.
 *   verdicts the verdicts, the first in the lowest bit: 1 where A's entry was before B's, else 0. The bits from the count on
 *            are 0.
 *   spot     with 6 the number of the element, as above. Else 0.
 */
struct rankunit_outcome {
    uint32_t refusal;
    uint32_t layer;
    uint32_t seat;
    uint32_t result;
    uint32_t count;
    uint32_t verdicts;
    uint64_t spot;
};

/* What a call for a rank comes to: refusal 0 and the rank, or refusal 11 and rank 0. */
struct rankunit_rank {
    uint32_t refusal;
    uint32_t rank;
};

/* Reads a sheet of delays into a list with room for so many. Room for 65,536 is always enough. */
struct rankunit_reading rankunit_read_delays(const uint8_t *bytes, size_t length, struct rankunit_delay *list, size_t room);

/* Reads a sheet of link levels into a list with room for so many. Room for 65,536 is always enough. */
struct rankunit_reading rankunit_read_link_levels(const uint8_t *bytes, size_t length, struct rankunit_link_level *list,
                                                  size_t room);

/* How many delays at most either sheet has in a request of so many bytes: with so much room in both lists no request of that
 * length is refused 7. */
size_t rankunit_most_delays(size_t length);

/*
 * Answers a request: the rank in four bytes; A's sheet, to its stated end or the request's, whichever is first; and the rest
 * as B's; both of delays. The sheets are read into the two lists. What was not read is as it was: both lists where the request
 * has under 4 bytes or A's sheet is refused, b where B's is, and of each the elements after those that were read.
 */
struct rankunit_outcome rankunit_answer_request(const uint8_t *bytes, size_t length, struct rankunit_delay *a, size_t room_a,
                                                struct rankunit_delay *b, size_t room_b);

/* The rank of the median among n elements: half of n, rounded up. Refused 11 where n is 0. */
struct rankunit_rank rankunit_median_rank(uint32_t n);

/* The rank of the percentile p among n elements: p hundredths of n, rounded down, but at least 1. Refused 11 where n is 0 or p
 * is not 1 to 99. */
struct rankunit_rank rankunit_percentile_rank(uint8_t p, uint32_t n);

#endif
