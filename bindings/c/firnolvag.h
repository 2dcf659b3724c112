/*
 * Least-cost route tables of timing campuses, for programs in C.
 *
 * A campus is a plan file: n stations, 1 to 256, numbered from 0, and at most 4,096 links, each from one station to another
 * at a cost. The calls below read the file, work what is asked of it and answer; they keep nothing from call to call,
 * allocate nothing, and may run in several threads at once. What they compute is proved: see the README beside the sources.
 *
 *   Costs           64-bit numbers. In a plan of kind sum they are picoseconds of time error, and add up along a walk; in one of
 *                   kind split they are outlets that share a reference, and multiply. FIRNOLVAG_FAR is the cost of a station that
 *                   no walk reaches, and of one that is reached at more than 2^64 - 2 only.
 *   Rows            The row of a source says of each station the least cost of a walk from the source, and its predecessor: the
 *                   station just before it on a walk of that cost. The source itself, and stations at FAR, have FIRNOLVAG_NONE.
 *                   Where several walks cost the least, the predecessor is that of one of them.
 *   Answers         0 where the call is accepted, else the number of the first refusal that fits. A refused call changes nothing
 *                   but the facts.
 *   Facts           What is to be told besides the answer is put at the start of facts, as many as it has places for; the places
 *                   after them stay as they were. Three places are always enough, and none is too few.
 *   Memory          Each pointer leads to as many places as the length after it says, all of them initialized, also those that
 *                   are only written to (calloc, or a static array). It is aligned as its type asks, and it is not NULL, also
 *                   where the length is 0. What a call writes overlaps with nothing else that it is lent, and no other thread
 *                   touches any of it meanwhile.
 *   Stack           FIRNOLVAG_STACK bytes are enough for a call. It touches each page of them in turn, so that a thread with
 *                   less ends at its guard page.
 */
#ifndef FIRNOLVAG_H
#define FIRNOLVAG_H

#include <stddef.h>
#include <stdint.h>

#ifdef __cplusplus
extern "C" {
#endif

#define FIRNOLVAG_FAR UINT64_MAX
#define FIRNOLVAG_NONE UINT16_MAX
#define FIRNOLVAG_MOST_STATIONS 256
#define FIRNOLVAG_MOST_LINKS 4096

/* As many places in costs and in predecessors are enough for the table of any plan. */
#define FIRNOLVAG_MOST_CELLS (256 * 256)

/* How much stack a call may take, in bytes. */
#define FIRNOLVAG_STACK (1024 * 1024)

/* The kind byte of a plan file. */
enum firnolvag_kind { FIRNOLVAG_SUM = 0, FIRNOLVAG_SPLIT = 1 };

/* How a row is worked. Each method gives right rows; they differ in time, and in which of several walks is taken. */
enum firnolvag_method { FIRNOLVAG_PLAIN = 0, FIRNOLVAG_REUSE = 1, FIRNOLVAG_PRUNE = 2 };

/* What holds the stations that wait: a heap for large campuses, a shelf for small ones. */
enum firnolvag_queue { FIRNOLVAG_HEAP = 0, FIRNOLVAG_SHELF = 1 };

/* Answers, and in brackets the facts that come with them. */
enum firnolvag_answer {
    FIRNOLVAG_ACCEPTED = 0,
    FIRNOLVAG_NO_STATION = 3,    /* a station number of n or more */
    FIRNOLVAG_IS_FAR = 11,       /* a route is asked for, and there is none below FAR */
    FIRNOLVAG_SHORT = 12,        /* the lists for a row are shorter than n, or that for a route is shorter than the route */
    FIRNOLVAG_ROW_LENGTH = 13,   /* a supplier's lists do not both have n places */
    FIRNOLVAG_ROW = 14,          /* a supplier's row is not right [a station that fails, a cause by which it does] */
    FIRNOLVAG_SHORT_HEADER = 15, /* the file is shorter than a header */
    FIRNOLVAG_MARK = 16,         /* it does not begin with CPL */
    FIRNOLVAG_VERSION = 17,      /* its version is not 1 */
    FIRNOLVAG_KIND = 18,         /* its kind byte names no kind */
    FIRNOLVAG_COUNTS = 19,       /* n is 0 or above 256, there are above 4,096 links, or a table is asked for in fewer than n * n
                                    places: firnolvag_sound tells which */
    FIRNOLVAG_LENGTH = 20,       /* its length is not what its counts require */
    FIRNOLVAG_RECORD = 22,       /* a record is at fault [the record, the number of its fault, its layer: 0 field, 1 record] */
    FIRNOLVAG_NO_METHOD = 101,   /* the number of a method is none of those above */
    FIRNOLVAG_NO_QUEUE = 102     /* the number of a queue is none of those above */
};

/*
 * Each call first reads the file, and answers 15 to 22 where it is refused; then come the refusals of the call, in the order of
 * their numbers. So a file that is cut short is told by 20 even where the source is no station either.
 *
 * The faults of a record are 21, a cost outside the range of the kind, 3, a station that is none, 4, a link from a station to
 * itself, and 6, a pair of stations that stood in an earlier record; the first of them in this order is told. The causes by
 * which a station of a supplier's row fails are
 *   1  it is the source, and has a cost other than that of standing still (0 in sum, 1 in split), or a predecessor;
 *   2  it is not the source, and has FAR with a predecessor, or a cost below FAR without one;
 *   3  its predecessor is no station, or no link leads from it to the station;
 *   4  its predecessor's cost, joined with the link between them, is not its own;
 *   5  a link leads to it from a station whose cost, joined with the link, is below its own.
 * FIRNOLVAG_NONE says that there is no predecessor; each other number of n or more is no station.
 */

/* Is this file sound? Accepted [kind byte, n, links]. */
uint8_t firnolvag_sound(const uint8_t *file, size_t file_len, uint64_t *facts, size_t facts_len);

/*
 * The whole table: row after row in the first n * n places of costs and of predecessors, each row right; the places after them
 * stay. Rows are worked in an order and by methods of the call's own choosing, so that it is the fastest way to a table.
 * Accepted [n].
 */
uint8_t firnolvag_table(const uint8_t *file, size_t file_len, uint64_t *costs, size_t costs_len, uint16_t *predecessors,
                        size_t predecessors_len, uint64_t *facts, size_t facts_len);

/* The whole table, each row in row order by one method with one queue. Refused by 101, 102 too. Accepted [n]. */
uint8_t firnolvag_table_by(const uint8_t *file, size_t file_len, uint8_t method, uint8_t queue, uint64_t *costs,
                           size_t costs_len, uint16_t *predecessors, size_t predecessors_len, uint64_t *facts,
                           size_t facts_len);

/*
 * One row, in the first n places of costs and of predecessors; those after them stay. With no other row to read, reuse and
 * prune do as plain does. Refused by 3, 12, 101, 102 too. Accepted [n, how many stations were taken from the queue], which by
 * plain and by prune is the number of stations below FAR.
 */
uint8_t firnolvag_row(const uint8_t *file, size_t file_len, uint16_t source, uint8_t method, uint8_t queue, uint64_t *costs,
                      size_t costs_len, uint16_t *predecessors, size_t predecessors_len, uint64_t *facts, size_t facts_len);

/*
 * A walk of least cost: its stations, from first and to last, at the start of list; the places after them stay. It passes no
 * station twice, so a list of n places is always long enough. Refused by 3, 11, 12 too. Accepted [how many stations, the cost].
 */
uint8_t firnolvag_route(const uint8_t *file, size_t file_len, uint16_t from, uint16_t to, uint16_t *list, size_t list_len,
                        uint64_t *facts, size_t facts_len);

/* Is a supplier's row right? Refused by 3, 13, 14 too. In split a cost of 0 is read as FAR; no call writes one. Accepted []. */
uint8_t firnolvag_check(const uint8_t *file, size_t file_len, uint16_t source, const uint64_t *costs, size_t costs_len,
                        const uint16_t *predecessors, size_t predecessors_len, uint64_t *facts, size_t facts_len);

#ifdef __cplusplus
}
#endif

#endif
