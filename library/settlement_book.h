/* The settlement book for C: the functions of libsettlement_book.a, an archive for x86-64 Linux that `library/build` writes to
 * target/staticlib.
 *
 * What each function does is proved; crates/settlement_book/specs/Promises.antt says what it promises. This page is written by hand, and
 * library/tests/c/book.c tests the functions by it.
 *
 * A table is lent as a pointer and a length, one behind the other; the length counts entries, not bytes. The caller sees to it that
 * each pointer is aligned, is not null and has that many entries behind it, and that nothing which a function may write (a pointer
 * without const) overlaps anything else that is lent with it. No function keeps a pointer. Numbers, entries and lengths may be
 * anything. */
#ifndef SETTLEMENT_BOOK_H
#define SETTLEMENT_BOOK_H

#include <stddef.h>
#include <stdint.h>

/* ---- answers
 *
 * Every function answers 0, or the number of the first question that says no; then nothing that was lent has changed, but that a query
 * for periods has told that it read none.
 *
 *    2  the month and every count are within their limits
 *    3  each table, and the caller's list for a book, a message or a line, has its exact length
 *    4  each element obeys its rules
 *    5  the book is well formed
 *    6  kind and fields are in range; of a query, the supplier and the owner
 *    7  the point is in the book
 *    8  the element is in the book, and the quantity is 1 where a tariff is linked
 *    9  the sender may
 *   10  the day is within the sender's time
 *   11  the point exists on the day
 *   12  the point is other than closed on the day
 *   13  the element is not linked on the day
 *   14  some day before the stop, and some day from it on, is linked
 *   15  it is no tariff, and it is linked on the day
 *   16  the reading's day is in the month
 *   17  rows and lines fit
 *   18  the list holds every record
 *   24  the bytes are eight; a sum to be packed has at most fifteen digits; bytes that are read are a packed amount */
#define SETTLEMENT_BOOK_ACCEPTED 0
#define SETTLEMENT_BOOK_WRONG_LENGTH 3

/* ---- a book and its tables
 *
 * The numbers of a book:
 *    0  year, 2000 to 2099
 *    1  month, 1 to 12
 *    2  points, 1 to 256, numbered from 0
 *    3  suppliers, 1 to 16, numbered from 1
 *    4  elements, 1 to 64, numbered from 0
 *    5  rows in use of the link table
 *    6  rows in use of the table of holders
 *    7  rows in use of the table of states
 *    8  kind of the next round: 1 fixing, 2 refixing, 3 any later
 *    9  first day of the month
 *   10  days of the month
 * A caller sets the first five for the opening and leaves all of them to the functions from then on.
 *
 * The tables that are lent with it, in this order:
 *    element_data  3 bytes an element: kind (1 subscription, 2 fee, 3 tariff), owner (1 grid company, 2 Energinet) and the sum of its
 *                  marks (1 VAT, 2 pass-on, 4 tax, 8 hourly prices)
 *    prices        24 an element, in millionths of a krone: one for each hour of an hourly tariff, else one and then 23 times 0
 *    links         1,024 words: the periods, sorted by point, element and first day; 0 behind the last
 *    holders       1,024 words, sorted by point and first day; 0 behind the last
 *    states        likewise
 *    readings      24 a point and day of the month, in Wh: by point, then day, then hour
 *    blocks        one a point: 1 where it is blocked
 *    lines         3 numbers a supplier and element, as below: by supplier, then element
 *    sent          the same for what the rounds so far have sent */
#define SETTLEMENT_BOOK_SIZE 11
#define SETTLEMENT_BOOK_ELEMENT_SIZE 3
#define SETTLEMENT_BOOK_ELEMENT_PRICES 24
#define SETTLEMENT_BOOK_ROWS 1024
#define SETTLEMENT_BOOK_DAY_READINGS 24

/* A period of the link table, packed into a word: the day after the last is not in it. Nothing ends a period whose day after the last is
 * SETTLEMENT_BOOK_NO_DAY. */
#define SETTLEMENT_BOOK_PERIOD_POINT(row) ((row) >> 48)
#define SETTLEMENT_BOOK_PERIOD_ELEMENT(row) ((row) >> 42 & 0x3f)
#define SETTLEMENT_BOOK_PERIOD_FIRST(row) ((row) >> 26 & 0xffff)
#define SETTLEMENT_BOOK_PERIOD_PAST(row) ((row) >> 10 & 0xffff)
#define SETTLEMENT_BOOK_PERIOD_QUANTITY(row) ((row) & 0x3ff)

/* Days are numbers: 0 is 1 January 2000, and this one stands behind the last, 31 December 2099. */
#define SETTLEMENT_BOOK_NO_DAY 36525

/* ---- a message
 *
 * Its numbers; those that its kind does not use are 0:
 *    0  kind: 1 link, 2 stop, 3 quantity, 4 holder, 5 state, 6 reading, 7 block, 8 round
 *    1  role of the sender: 1 grid company, 2 Energinet, 3 supplier
 *    2  number of the supplier that sends it, else 0
 *    3  day it was received
 *    4  point (kinds 1 to 7)
 *    5  element (1 to 3)
 *    6  day (1 to 6)
 *    7  hour, 0 to 23 (6)
 *    8  value: quantity (1 and 3), holder or 0 for none (4), state (5: 1 new, 2 connected, 3 disconnected, 4 closed), Wh (6),
 *       1 to block or 0 to unblock (7) */
#define SETTLEMENT_BOOK_FIELDS_SIZE 9

/* ---- a line and a record
 *
 * A line, what a supplier owes for an element:
 *    0  quantity: days times what is linked, for a tariff Wh
 *    1  kroner
 *    2  billionths of a krone, 0 to 999,999,999, counting upwards from the kroner
 *
 * A record, how much a line has moved since the last round, and its balance, the line after this one. In a book that was opened and has
 * only taken messages since, the records of a line so far add up to its balance.
 *    0  kind: 1 fixing, 2 refixing, 3 any later
 *    1  supplier
 *    2  element
 *    3  quantity
 *    4  kroner
 *    5  billionths
 *    6  balance, quantity
 *    7  balance, kroner
 *    8  balance, billionths */
#define SETTLEMENT_BOOK_LINE_SIZE 3
#define SETTLEMENT_BOOK_RECORD_SIZE 9
/* where the balance begins in a record; it has the numbers of a line */
#define SETTLEMENT_BOOK_RECORD_BALANCE 6

/* ---- a packed amount
 *
 * An amount in øre for the ledger, in packed decimal: eight bytes, each of two half-bytes, the upper one first. Fifteen half-bytes are the
 * digits, the highest first; the last one is the sign, C for zero and above or D below. Minus zero is no packed amount, so every amount
 * from -999,999,999,999,999 to 999,999,999,999,999 øre has one form: -7 øre are 00 00 00 00 00 00 00 7D. */
#define SETTLEMENT_BOOK_PACKED_SIZE 8

/* ---- the functions
 *
 * They take anything: any numbers, any entries, any lengths. The comment above each says what is written where the answer is 0. */

#ifdef __cplusplus
extern "C" {
#endif

/* Opens the month that the first five numbers of the book name. Answers 0, 2, 3 or 4.
 * At 0 the other numbers of the book are set, the next round to the fixing, and all tables but element_data and prices to 0. */
uint64_t settlement_book_open(
    uint64_t *book, size_t book_length,
    const uint8_t *element_data, size_t element_data_length,
    const int64_t *prices, size_t prices_length,
    uint64_t *links, size_t links_length,
    uint64_t *holders, size_t holders_length,
    uint64_t *states, size_t states_length,
    uint32_t *readings, size_t readings_length,
    uint8_t *blocks, size_t blocks_length,
    int64_t *lines, size_t lines_length,
    int64_t *sent, size_t sent_length);

/* Takes a message. Answers 0, or 2 to 18.
 * At 0 book and tables are as the message leaves them, *count is how many records there are, which is 0 but for a round, and the records
 * stand at the front of the list, nine numbers each; what is behind them is as it was lent. A list holds a ninth of its length of records,
 * and a round has at most one for each supplier and element; only a round needs a list. */
uint64_t settlement_book_message(
    uint64_t *book, size_t book_length,
    const uint8_t *element_data, size_t element_data_length,
    const int64_t *prices, size_t prices_length,
    uint64_t *links, size_t links_length,
    uint64_t *holders, size_t holders_length,
    uint64_t *states, size_t states_length,
    uint32_t *readings, size_t readings_length,
    uint8_t *blocks, size_t blocks_length,
    int64_t *lines, size_t lines_length,
    int64_t *sent, size_t sent_length,
    int64_t *records, size_t records_length,
    const uint64_t *fields, size_t fields_length,
    uint64_t *count);

/* What a supplier owes for an element. Answers 0, 2 to 6 or 8.
 * At 0 the three numbers of the line are written. */
uint64_t settlement_book_line(
    const uint64_t *book, size_t book_length,
    const uint8_t *element_data, size_t element_data_length,
    const int64_t *prices, size_t prices_length,
    const uint64_t *links, size_t links_length,
    const uint64_t *holders, size_t holders_length,
    const uint64_t *states, size_t states_length,
    const uint32_t *readings, size_t readings_length,
    const uint8_t *blocks, size_t blocks_length,
    const int64_t *lines, size_t lines_length,
    const int64_t *sent, size_t sent_length,
    uint64_t supplier,
    uint64_t element,
    int64_t *line, size_t line_length);

/* Everything recorded for a point and an element, by first day. Answers 0, 2 to 5, 7 or 8.
 * At 0 the periods are links[*place] to links[*place + *count - 1], and *read is how many periods were read to find them: those up to
 * the first beyond the point and element, and that one, or all in use where none is beyond. At any other answer *read is 0. */
uint64_t settlement_book_periods(
    const uint64_t *book, size_t book_length,
    const uint8_t *element_data, size_t element_data_length,
    const int64_t *prices, size_t prices_length,
    const uint64_t *links, size_t links_length,
    const uint64_t *holders, size_t holders_length,
    const uint64_t *states, size_t states_length,
    const uint32_t *readings, size_t readings_length,
    const uint8_t *blocks, size_t blocks_length,
    const int64_t *lines, size_t lines_length,
    const int64_t *sent, size_t sent_length,
    uint64_t point,
    uint64_t element,
    uint64_t *place,
    uint64_t *count,
    uint64_t *read);

/* The earliest day of the month on which the point counts but for a missing holder and has a link. A point counts in the states connected
 * and disconnected, and in a month up to December 2018 in every state, once it exists. Answers 0, 2 to 5 or 7.
 * At 0 *day is that day, or SETTLEMENT_BOOK_NO_DAY where there is none. */
uint64_t settlement_book_day_without_holder(
    const uint64_t *book, size_t book_length,
    const uint8_t *element_data, size_t element_data_length,
    const int64_t *prices, size_t prices_length,
    const uint64_t *links, size_t links_length,
    const uint64_t *holders, size_t holders_length,
    const uint64_t *states, size_t states_length,
    const uint32_t *readings, size_t readings_length,
    const uint8_t *blocks, size_t blocks_length,
    const int64_t *lines, size_t lines_length,
    const int64_t *sent, size_t sent_length,
    uint64_t point,
    uint64_t *day);

/* What a supplier owes for the elements of an owner (1 grid company, 2 Energinet), as a packed amount: the amounts of those lines, added up
 * and then rounded once to the øre, halves away from zero. The sign is that of the rounded sum. Answers 0, 2 to 6 or 24.
 * At 0 the eight bytes are written. A book that was opened and has only taken messages since has no sum of more than fifteen digits. */
uint64_t settlement_book_packed_sum(
    const uint64_t *book, size_t book_length,
    const uint8_t *element_data, size_t element_data_length,
    const int64_t *prices, size_t prices_length,
    const uint64_t *links, size_t links_length,
    const uint64_t *holders, size_t holders_length,
    const uint64_t *states, size_t states_length,
    const uint32_t *readings, size_t readings_length,
    const uint8_t *blocks, size_t blocks_length,
    const int64_t *lines, size_t lines_length,
    const int64_t *sent, size_t sent_length,
    uint64_t supplier,
    uint64_t owner,
    uint8_t *bytes, size_t bytes_length);

/* Reads a packed amount. Answers 0 or 24.
 * At 0 *amount is the amount in øre. */
uint64_t settlement_book_read_packed(const uint8_t *bytes, size_t bytes_length, int64_t *amount);

/* ---- for the Rust wrapper (library/src/book.rs) and nobody else
 *
 * These ask no question of the book. Their caller sees to it that book, fields and line have their sizes, that every table has the length
 * of the opening, and that the book is well formed: that settlement_book_open opened it, or that message functions have left it so, with
 * nobody else writing book or tables since. Where that fails they may read and write outside what was lent. They answer and write what the
 * functions above do, and are lent only the tables that they read or write. */

uint64_t settlement_book_message_within(
    uint64_t *book, size_t book_length,
    const uint8_t *element_data, size_t element_data_length,
    const int64_t *prices, size_t prices_length,
    uint64_t *links, size_t links_length,
    uint64_t *holders, size_t holders_length,
    uint64_t *states, size_t states_length,
    uint32_t *readings, size_t readings_length,
    uint8_t *blocks, size_t blocks_length,
    int64_t *lines, size_t lines_length,
    int64_t *sent, size_t sent_length,
    int64_t *records, size_t records_length,
    const uint64_t *fields, size_t fields_length,
    uint64_t *count);

uint64_t settlement_book_line_within(
    const uint64_t *book, size_t book_length,
    const int64_t *lines, size_t lines_length,
    uint64_t supplier,
    uint64_t element,
    int64_t *line, size_t line_length);

uint64_t settlement_book_periods_within(
    const uint64_t *book, size_t book_length,
    const uint64_t *links, size_t links_length,
    uint64_t point,
    uint64_t element,
    uint64_t *place,
    uint64_t *count,
    uint64_t *read);

uint64_t settlement_book_day_without_holder_within(
    const uint64_t *book, size_t book_length,
    const uint64_t *links, size_t links_length,
    const uint64_t *holders, size_t holders_length,
    const uint64_t *states, size_t states_length,
    uint64_t point,
    uint64_t *day);

uint64_t settlement_book_packed_sum_within(
    const uint64_t *book, size_t book_length,
    const uint8_t *element_data, size_t element_data_length,
    const int64_t *lines, size_t lines_length,
    uint64_t supplier,
    uint64_t owner,
    uint8_t *bytes, size_t bytes_length);

#ifdef __cplusplus
}
#endif

#endif
