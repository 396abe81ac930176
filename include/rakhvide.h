/* Rakhvide's functions for programs in C, and for any language that calls C: the static library that `rt lib` writes in crates/rakhvide_c.
 *
 * What each function answers is proved for every content of its buffers (crates/rakhvide_c); that this header declares them as they are is not. The bytes
 * of a book, of an event and of a snapshot are in docs/LAYOUT.md, what the numbers mean in docs/PROTOCOL.md. What is left to the caller, and cannot be
 * proved here:
 *   - a pointer is not null, also where its length is 0, and the bytes from it to its length are there;
 *   - a buffer that is written (no `const`) overlaps no other argument;
 *   - no other thread writes to a buffer during the call.
 * No function keeps a pointer, allocates, or has state of its own: calls on different buffers may run side by side.
 * A number of 0 is accepted. Any other is a refusal, and then every buffer, and *bits, holds what it held. rakhvide_page and rakhvide_open_jobs answer
 * no such number: see there.
 * A call needs up to 128 KiB of stack. */
#ifndef RAKHVIDE_H
#define RAKHVIDE_H

#include <stdbool.h>
#include <stddef.h>
#include <stdint.h>

#ifdef __cplusplus
extern "C" {
#endif

/* No page is longer: the length that rakhvide_page asks of its buffer. */
#define RAKHVIDE_PAGE 463080

/* The length of a snapshot. One of another length, as those kept before request 2.4 are (5235 bytes) and before 2.3 (5171), is no table:
 * docs/LAYOUT.md. */
#define RAKHVIDE_TABLE 5236

/* An identifier by ISO 6166: 0, or 4 for its form (another length than 12 too), or 5 for its check digit. */
uint8_t rakhvide_identifier(const uint8_t *identifier, size_t length);

/* A book: 0, or the number of its refusal, 1 to 7. */
uint8_t rakhvide_book(const uint8_t *book, size_t length);

/* Adds an entry to the book that is the first count bytes of the buffer. Its number, from top to bottom:
 *   3        count is past the buffer's end, whatever else is wrong;
 *   1 to 7   the book's own;
 *   2        the book has 64 entries;
 *   4, 5, 6  the identifier's form (another length than 12 too), its check digit, equal to one of the book;
 *   7        the terms are outside the rules (another length than 19 too);
 *   23       the buffer is shorter than the grown book, count + 31 bytes;
 *   0        the first count + 31 bytes of the buffer are the book with the entry last, its terms as they were given, and the bytes after
 *            them are as they were.
 * To build a book, begin with its empty one, 4 bytes: the machine count, and 0 entries. Neither identifier nor terms may lie in the buffer. */
uint8_t rakhvide_add(uint8_t *buffer, size_t buffer_length, size_t count, const uint8_t *identifier, size_t identifier_length,
                     const uint8_t *terms, size_t terms_length);

/* The run that copies most: writes to the front of the buffer the events that admit job 0 and drive its replica number to deaths + 1, which is as high
 * as so many deaths can drive any. Machines 1 to deaths die in turn, each with the job in its pool. Its number, from top to bottom:
 *   28  machines is not 2 to 16, or deaths is above machines - 1;
 *   29  the buffer is shorter than the events, 3 * (1 + 7 * deaths) bytes: at most 318;
 *   0   the events are the first 3 * (1 + 7 * deaths) bytes of the buffer, and the bytes after them are as they were.
 * All of these events are accepted over any book of so many machines and at least one entry, from its fresh table. */
uint8_t rakhvide_worst_run(uint64_t machines, uint64_t deaths, uint8_t *buffer, size_t length);

/* A term of the book, 19 bytes: 0, and *bits are the 64 bits of its bond's price; or 7, and *bits stay (they are read, and written back).
 * Its third byte is the payments per year: 1, 2, 4 or 12, and 0 reads as 2; any other is 7. */
uint8_t rakhvide_term(const uint8_t *term, size_t length, uint64_t *bits);

/* The 64 bits of a price, of any arguments: periods, which count payments; payments per year; annual coupon per 100 of face;
 * annual yield as a fraction. It is the formula with the number of payments as given: 0 is not read as 2, which is the rule of a book's byte.
 * A price that is a NaN, which no term of a book gives, has the bits 7FF8000000000000. */
uint64_t rakhvide_price_zero(uint8_t periods, uint8_t payments, double yield);
uint64_t rakhvide_price_fixed(uint8_t periods, uint8_t payments, double coupon, double yield);

/* The page of a book and a list of events, three bytes each, of which at most 60,000 bytes count. After an accepted book its last line is "open" and
 * the number of open jobs.
 * true: the page is the first *written bytes of out, and the rest of out is as it was.
 * false: out is shorter than RAKHVIDE_PAGE; it is as it was, and 0 is written to *written. */
bool rakhvide_page(const uint8_t *book, size_t book_length, const uint8_t *events, size_t events_length,
                   uint8_t *out, size_t out_length, size_t *written);

/* A snapshot: RAKHVIDE_TABLE bytes that a program may store and read again. It has the terms of each entry and not the identifiers: keep the book too.
 * Opens the book: its number; 9 where the table's buffer has another length than RAKHVIDE_TABLE; or 0, and the fresh table is written. */
uint8_t rakhvide_open(const uint8_t *book, size_t book_length, uint8_t *table, size_t table_length);

/* Check 9 of bytes that may be anything: 0, or 9 where they are no table or a faulty one. */
uint8_t rakhvide_check(const uint8_t *table, size_t table_length);

/* One event, of which the first three bytes count, on bytes that may be anything: its number; the table changes exactly where it is 0. It is the
 * first of these that holds:
 *   9                            the bytes are no table, or a faulty one;
 *   10                           a code not 1 to 8, an unused b not 0, fewer than three bytes;
 *   11                           a machine or entry number too large, by the table's current machine count; never for the a of a join;
 *   admit (1)    13              admitted already;
 *   steal (2)    12, 14, 24, 25  the thief is dead; is the victim; waits already; was told that the victim is dead;
 *                16              128 messages are in flight, and the victim lives;
 *   deliver (3)  15              no message is in flight from a to b;
 *   start (4)    12, 17, 18      the machine is dead; runs a copy already; has no copy of the job in its pool;
 *   done (5)     12, 19, 16      the machine is dead; runs nothing; 128 messages are in flight;
 *   die (6)      20, 12          the machine is the root; is dead already;
 *   notice (7)   12, 21, 22      the machine is dead; the other is alive; it was told already;
 *   join (8)     26, 27          there are 16 machines already, the dead among them; a is not the next number. */
uint8_t rakhvide_step(uint8_t *table, size_t table_length, const uint8_t *event, size_t event_length);

/* How many jobs are open: admitted, and not priced. It is the number that the snapshot keeps, 0 to 64 where the table passes check 9, and one byte is
 * read for it: the table is not looked over, and of a faulty one the answer is what stands there. 255 where the bytes have another length than
 * RAKHVIDE_TABLE. */
uint8_t rakhvide_open_jobs(const uint8_t *table, size_t table_length);

#ifdef __cplusplus
}
#endif

#endif
