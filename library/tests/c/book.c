/* The functions of settlement_book.h, called from C: document 01's worked example (March 2024) with queries, balances, refusals, packed
 * amounts, and wrong lengths for every function; then the states that count in December 2018 and in January 2019. Prints a line for each
 * expectation that fails and ends with status 1, or prints how many held.
 *
 * Everything that is lent lies in one block of memory with guard bytes around each part, so that comparing the block with a copy of it
 * says which parts a call has written, and that it wrote nothing outside them. */
#include <inttypes.h>
#include <stdio.h>
#include <stdlib.h>
#include <string.h>

#include "settlement_book.h"

/* ---- the month */

#define YEAR 2024
#define MONTH 3
#define DAYS 31
#define FIRST_DAY 8826
#define POINTS 1
#define SUPPLIERS 2
#define ELEMENTS 12
#define LINE_COUNT (SUPPLIERS * ELEMENTS)

static const uint8_t element_data[ELEMENTS * SETTLEMENT_BOOK_ELEMENT_SIZE] = {
    1, 1, 0, /* a subscription of the grid company */
    3, 1, 0, /* a day tariff of the grid company */
    /* ten fees of Energinet's, which no message links */
    2, 2, 0, 2, 2, 0, 2, 2, 0, 2, 2, 0, 2, 2, 0, 2, 2, 0, 2, 2, 0, 2, 2, 0, 2, 2, 0, 2, 2, 0,
};

static const int64_t prices[ELEMENTS * SETTLEMENT_BOOK_ELEMENT_PRICES] = {
    [0] = 20000000,
    [SETTLEMENT_BOOK_ELEMENT_PRICES] = 500000,
};

/* some of the book's numbers */
#define YEAR_AT 0
#define PERIODS_AT 5
#define ROUND_AT 8
#define FIRST_DAY_AT 9
#define DAYS_AT 10

/* ---- what is lent */

enum part {
    BOOK,
    ELEMENT_DATA,
    PRICES,
    LINKS,
    HOLDERS,
    STATES,
    READINGS,
    BLOCKS,
    LINES,
    SENT,
    RECORDS,
    FIELDS,
    LINE,
    PLACE,
    COUNT,
    READ,
    DAY,
    BYTES,  /* what a packed sum is written to */
    PACKED, /* what is read as a packed amount */
    AMOUNT,
    PARTS
};

#define ONLY(part) (1u << (part))
#define NOTHING 0u
/* what an opening and a message write; a message the count too, and a round the records */
#define WRITTEN (ONLY(BOOK) | ONLY(LINKS) | ONLY(HOLDERS) | ONLY(STATES) | ONLY(READINGS) | ONLY(BLOCKS) | ONLY(LINES) | ONLY(SENT))

/* one more record than a round of this book can have */
#define ROOM (LINE_COUNT + 1)

static const struct {
    size_t width, length;
} shape[PARTS] = {
    [BOOK] = {sizeof(uint64_t), SETTLEMENT_BOOK_SIZE},
    [ELEMENT_DATA] = {sizeof(uint8_t), ELEMENTS * SETTLEMENT_BOOK_ELEMENT_SIZE},
    [PRICES] = {sizeof(int64_t), ELEMENTS * SETTLEMENT_BOOK_ELEMENT_PRICES},
    [LINKS] = {sizeof(uint64_t), SETTLEMENT_BOOK_ROWS},
    [HOLDERS] = {sizeof(uint64_t), SETTLEMENT_BOOK_ROWS},
    [STATES] = {sizeof(uint64_t), SETTLEMENT_BOOK_ROWS},
    [READINGS] = {sizeof(uint32_t), POINTS * DAYS * SETTLEMENT_BOOK_DAY_READINGS},
    [BLOCKS] = {sizeof(uint8_t), POINTS},
    [LINES] = {sizeof(int64_t), LINE_COUNT * SETTLEMENT_BOOK_LINE_SIZE},
    [SENT] = {sizeof(int64_t), LINE_COUNT * SETTLEMENT_BOOK_LINE_SIZE},
    [RECORDS] = {sizeof(int64_t), ROOM * SETTLEMENT_BOOK_RECORD_SIZE},
    [FIELDS] = {sizeof(uint64_t), SETTLEMENT_BOOK_FIELDS_SIZE},
    [LINE] = {sizeof(int64_t), SETTLEMENT_BOOK_LINE_SIZE},
    [PLACE] = {sizeof(uint64_t), 1},
    [COUNT] = {sizeof(uint64_t), 1},
    [READ] = {sizeof(uint64_t), 1},
    [DAY] = {sizeof(uint64_t), 1},
    [BYTES] = {sizeof(uint8_t), SETTLEMENT_BOOK_PACKED_SIZE},
    [PACKED] = {sizeof(uint8_t), SETTLEMENT_BOOK_PACKED_SIZE},
    [AMOUNT] = {sizeof(int64_t), 1},
};

/* guard bytes before the first part and behind each; parts begin at multiples of it */
#define GUARD 64
#define GUARD_BYTE 0xa5
/* whatever stood in the parts before */
#define STALE_BYTE 0x5a

static unsigned char *memory, *copy;
static size_t memory_size;
static void *start[PARTS];
/* the length that a call says: a test may say another than the part has */
static size_t length[PARTS];

static size_t size_of(enum part part) { return shape[part].width * shape[part].length; }

static size_t place_of(enum part part) { return (size_t)((unsigned char *)start[part] - memory); }

static void *allocate(size_t size) {
    void *block = malloc(size);
    if (block == NULL) {
        printf("failed: no memory\n");
        exit(1);
    }
    return block;
}

static void lend(void) {
    size_t places[PARTS];
    memory_size = GUARD;
    for (int part = 0; part < PARTS; part++) {
        places[part] = memory_size;
        memory_size += (size_of(part) + GUARD - 1) / GUARD * GUARD + GUARD;
    }
    memory = allocate(memory_size);
    copy = allocate(memory_size);
    memset(memory, GUARD_BYTE, memory_size);
    for (int part = 0; part < PARTS; part++) {
        start[part] = memory + places[part];
        length[part] = shape[part].length;
        memset(start[part], STALE_BYTE, size_of(part));
    }
    memcpy(start[ELEMENT_DATA], element_data, sizeof element_data);
    memcpy(start[PRICES], prices, sizeof prices);
}

static uint64_t *numbers(enum part part) { return start[part]; }

static int64_t *amounts(enum part part) { return start[part]; }

/* ---- expectations */

static unsigned held, failed;

static void expect(const char *call, const char *what, int holds) {
    if (holds) {
        held++;
    } else {
        failed++;
        printf("failed: %s: %s\n", call, what);
    }
}

static void expect_number(const char *call, const char *what, int64_t found, int64_t expected) {
    if (found == expected) {
        held++;
    } else {
        failed++;
        printf("failed: %s: %s is %" PRId64 ", not %" PRId64 "\n", call, what, found, expected);
    }
}

/* Has nothing changed since the copy but the parts that may? */
static int changed_only(unsigned may) {
    size_t at = 0;
    for (int part = 0; part < PARTS; part++) {
        size_t from = place_of(part), to = from + size_of(part);
        if (memcmp(memory + at, copy + at, from - at) != 0) {
            return 0;
        }
        if (!(may & ONLY(part)) && memcmp(memory + from, copy + from, to - from) != 0) {
            return 0;
        }
        at = to;
    }
    return memcmp(memory + at, copy + at, memory_size - at) == 0;
}

/* ---- the calls */

#define SLICE(type, part) (type *)start[part], length[part]
#define TABLES                                                                                          \
    SLICE(uint64_t, BOOK), SLICE(uint8_t, ELEMENT_DATA), SLICE(int64_t, PRICES), SLICE(uint64_t, LINKS), \
        SLICE(uint64_t, HOLDERS), SLICE(uint64_t, STATES), SLICE(uint32_t, READINGS),                    \
        SLICE(uint8_t, BLOCKS), SLICE(int64_t, LINES), SLICE(int64_t, SENT)

/* what a query asks for */
static uint64_t asked_supplier, asked_point, asked_element, asked_owner;

static uint64_t call_open(void) { return settlement_book_open(TABLES); }

static uint64_t call_message(void) {
    return settlement_book_message(TABLES, SLICE(int64_t, RECORDS), SLICE(uint64_t, FIELDS), numbers(COUNT));
}

static uint64_t call_line(void) {
    return settlement_book_line(TABLES, asked_supplier, asked_element, SLICE(int64_t, LINE));
}

static uint64_t call_periods(void) {
    return settlement_book_periods(TABLES, asked_point, asked_element, numbers(PLACE), numbers(COUNT), numbers(READ));
}

static uint64_t call_day(void) { return settlement_book_day_without_holder(TABLES, asked_point, numbers(DAY)); }

static uint64_t call_packed_sum(void) {
    return settlement_book_packed_sum(TABLES, asked_supplier, asked_owner, SLICE(uint8_t, BYTES));
}

static uint64_t call_read_packed(void) { return settlement_book_read_packed(SLICE(uint8_t, PACKED), amounts(AMOUNT)); }

#define EVERY_TABLE ((1u << (SENT + 1)) - 1)

static const struct function {
    const char *name;
    uint64_t (*call)(void);
    /* the slices whose lengths question 3 asks */
    unsigned slices;
} functions[] = {
    {"settlement_book_open", call_open, EVERY_TABLE},
    {"settlement_book_message", call_message, EVERY_TABLE | ONLY(FIELDS)},
    {"settlement_book_line", call_line, EVERY_TABLE | ONLY(LINE)},
    {"settlement_book_periods", call_periods, EVERY_TABLE},
    {"settlement_book_day_without_holder", call_day, EVERY_TABLE},
    {"settlement_book_packed_sum", call_packed_sum, EVERY_TABLE},
    {"settlement_book_read_packed", call_read_packed, NOTHING},
};

/* the first ones are lent a book */
enum { OPEN, MESSAGE, QUERY_LINE, QUERY_PERIODS, QUERY_DAY, PACKED_SUM, BOOK_FUNCTIONS, READ_PACKED = BOOK_FUNCTIONS };

/* Calls a function that is to give an answer and to change nothing but the parts that it may. What it may give beside the answer holds
 * something else before, so that a number written too much is seen. */
static void call(int function, const char *what, uint64_t answer, unsigned may) {
    static const enum part given[] = {RECORDS, LINE, PLACE, COUNT, READ, DAY, BYTES, AMOUNT};
    for (size_t i = 0; i < sizeof given / sizeof given[0]; i++) {
        memset(start[given[i]], STALE_BYTE, size_of(given[i]));
    }
    memcpy(copy, memory, memory_size);
    uint64_t found = functions[function].call();
    expect_number(what, "the answer", (int64_t)found, (int64_t)answer);
    expect(what, "nothing else changes", changed_only(may));
}

/* A function that is refused changes nothing, but that a query for periods tells that it read none. */
static void refused(int function, const char *what, uint64_t question) {
    call(function, what, question, function == QUERY_PERIODS ? ONLY(READ) : NOTHING);
    if (function == QUERY_PERIODS) {
        expect_number(what, "the periods read", (int64_t)*numbers(READ), 0);
    }
}

static void message(const char *what, const uint64_t fields[SETTLEMENT_BOOK_FIELDS_SIZE], uint64_t answer, unsigned may) {
    memcpy(start[FIELDS], fields, size_of(FIELDS));
    call(MESSAGE, what, answer, may);
}

/* A message that is no round: it is accepted, and there is no record. */
static void accepted(const char *what, const uint64_t fields[SETTLEMENT_BOOK_FIELDS_SIZE]) {
    message(what, fields, SETTLEMENT_BOOK_ACCEPTED, WRITTEN | ONLY(COUNT));
    expect_number(what, "the count", (int64_t)*numbers(COUNT), 0);
}

static const uint64_t round_message[] = {8, 2, 0, FIRST_DAY, 0, 0, 0, 0, 0};

static void line_is(uint64_t supplier, uint64_t element, int64_t quantity, int64_t kroner, int64_t billionths) {
    asked_supplier = supplier;
    asked_element = element;
    call(QUERY_LINE, "line", SETTLEMENT_BOOK_ACCEPTED, ONLY(LINE));
    expect_number("line", "the quantity", amounts(LINE)[0], quantity);
    expect_number("line", "the kroner", amounts(LINE)[1], kroner);
    expect_number("line", "the billionths", amounts(LINE)[2], billionths);
}

/* A round with these records, and nothing written behind them. Each balance is the line as the query then answers. */
static void round_with(const char *what, const int64_t *records, size_t count) {
    message(what, round_message, SETTLEMENT_BOOK_ACCEPTED, WRITTEN | ONLY(COUNT) | ONLY(RECORDS));
    size_t size = count * SETTLEMENT_BOOK_RECORD_SIZE * sizeof *records, from = place_of(RECORDS);
    expect_number(what, "the count", (int64_t)*numbers(COUNT), (int64_t)count);
    expect(what, "the records", memcmp(start[RECORDS], records, size) == 0);
    expect(what, "what is behind them", memcmp(memory + from + size, copy + from + size, size_of(RECORDS) - size) == 0);
    for (size_t i = 0; i < count; i++) {
        const int64_t *record = records + i * SETTLEMENT_BOOK_RECORD_SIZE, *balance = record + SETTLEMENT_BOOK_RECORD_BALANCE;
        line_is((uint64_t)record[1], (uint64_t)record[2], balance[0], balance[1], balance[2]);
    }
}

static void line_refused(uint64_t supplier, uint64_t element, uint64_t question) {
    asked_supplier = supplier;
    asked_element = element;
    refused(QUERY_LINE, "line that is refused", question);
}

static void periods_at(uint64_t element, uint64_t place, uint64_t count, uint64_t read) {
    asked_point = 0;
    asked_element = element;
    call(QUERY_PERIODS, "periods", SETTLEMENT_BOOK_ACCEPTED, ONLY(PLACE) | ONLY(COUNT) | ONLY(READ));
    expect_number("periods", "the place", (int64_t)*numbers(PLACE), (int64_t)place);
    expect_number("periods", "the count", (int64_t)*numbers(COUNT), (int64_t)count);
    expect_number("periods", "the periods read", (int64_t)*numbers(READ), (int64_t)read);
}

static void periods_refused(uint64_t point, uint64_t element, uint64_t question) {
    asked_point = point;
    asked_element = element;
    refused(QUERY_PERIODS, "periods that are refused", question);
}

static void period_is(size_t row, uint64_t element, uint64_t first, uint64_t past, uint64_t quantity) {
    uint64_t word = numbers(LINKS)[row];
    expect_number("period", "the point", (int64_t)SETTLEMENT_BOOK_PERIOD_POINT(word), 0);
    expect_number("period", "the element", (int64_t)SETTLEMENT_BOOK_PERIOD_ELEMENT(word), (int64_t)element);
    expect_number("period", "the first day", (int64_t)SETTLEMENT_BOOK_PERIOD_FIRST(word), (int64_t)first);
    expect_number("period", "the day past it", (int64_t)SETTLEMENT_BOOK_PERIOD_PAST(word), (int64_t)past);
    expect_number("period", "the quantity", (int64_t)SETTLEMENT_BOOK_PERIOD_QUANTITY(word), (int64_t)quantity);
}

static void day_is(uint64_t day) {
    asked_point = 0;
    call(QUERY_DAY, "day without a holder", SETTLEMENT_BOOK_ACCEPTED, ONLY(DAY));
    expect_number("day without a holder", "the day", (int64_t)*numbers(DAY), (int64_t)day);
}

static void packed_is(const char *what, uint64_t supplier, uint64_t owner, const uint8_t bytes[SETTLEMENT_BOOK_PACKED_SIZE]) {
    asked_supplier = supplier;
    asked_owner = owner;
    call(PACKED_SUM, what, SETTLEMENT_BOOK_ACCEPTED, ONLY(BYTES));
    expect(what, "the bytes", memcmp(start[BYTES], bytes, size_of(BYTES)) == 0);
}

static void packed_refused(const char *what, uint64_t supplier, uint64_t owner, uint64_t question) {
    asked_supplier = supplier;
    asked_owner = owner;
    refused(PACKED_SUM, what, question);
}

static void amount_is(const char *what, const uint8_t bytes[SETTLEMENT_BOOK_PACKED_SIZE], int64_t ore) {
    memcpy(start[PACKED], bytes, size_of(PACKED));
    call(READ_PACKED, what, SETTLEMENT_BOOK_ACCEPTED, ONLY(AMOUNT));
    expect_number(what, "the amount", *amounts(AMOUNT), ore);
}

static void amount_refused(const char *what, const uint8_t bytes[SETTLEMENT_BOOK_PACKED_SIZE]) {
    memcpy(start[PACKED], bytes, size_of(PACKED));
    refused(READ_PACKED, what, 24);
}

/* ---- the tests */

static void set_month(uint64_t year, uint64_t month) {
    const uint64_t named[] = {year, month, POINTS, SUPPLIERS, ELEMENTS};
    memcpy(start[BOOK], named, sizeof named);
}

/* The opening clears whatever stood in the tables; one that is refused leaves it. */
static void opening(void) {
    set_month(YEAR, 13);
    call(OPEN, "opening of month 13", 2, NOTHING);
    set_month(1999, MONTH);
    call(OPEN, "opening of 1999", 2, NOTHING);
    set_month(YEAR, MONTH);
    ((uint8_t *)start[ELEMENT_DATA])[0] = 4;
    call(OPEN, "opening with an element of kind 4", 4, NOTHING);
    ((uint8_t *)start[ELEMENT_DATA])[0] = element_data[0];

    call(OPEN, "opening", SETTLEMENT_BOOK_ACCEPTED, WRITTEN);
    const uint64_t fresh[SETTLEMENT_BOOK_SIZE] = {YEAR, MONTH, POINTS, SUPPLIERS, ELEMENTS, 0, 0, 0, 1, FIRST_DAY, DAYS};
    expect("opening", "the book's numbers", memcmp(start[BOOK], fresh, sizeof fresh) == 0);
    for (int part = LINKS; part <= SENT; part++) {
        size_t nonzero = 0;
        for (size_t at = 0; at < size_of(part); at++) {
            nonzero += ((unsigned char *)start[part])[at] != 0;
        }
        expect_number("opening", "bytes of a table that are not 0", (int64_t)nonzero, 0);
    }
    periods_at(0, 0, 0, 0);
    line_is(1, 0, 0, 0, 0);
    day_is(SETTLEMENT_BOOK_NO_DAY);
}

/* Document 01's messages and records; the last is refused. */
static void worked_example(void) {
    static const uint64_t messages[][SETTLEMENT_BOOK_FIELDS_SIZE] = {
        {5, 1, 0, FIRST_DAY, 0, 0, FIRST_DAY, 0, 2}, /* connected */
        {4, 2, 0, FIRST_DAY, 0, 0, FIRST_DAY, 0, 1}, /* holder 1 */
        {4, 2, 0, FIRST_DAY, 0, 0, 8841, 0, 2},      /* holder 2 */
        {1, 1, 0, FIRST_DAY, 0, 0, FIRST_DAY, 0, 2}, /* element 0, twice */
        {1, 1, 0, FIRST_DAY, 0, 1, FIRST_DAY, 0, 1}, /* element 1 */
        {6, 1, 0, FIRST_DAY, 0, 0, 8840, 23, 1000},  /* 1,000 Wh */
        {6, 1, 0, FIRST_DAY, 0, 0, 8841, 0, 3000},   /* 3,000 Wh */
    };
    static const int64_t fixing[][SETTLEMENT_BOOK_RECORD_SIZE] = {
        {1, 1, 0, 30, 19, 354830000, 30, 19, 354830000},
        {1, 1, 1, 1000, 0, 500000000, 1000, 0, 500000000},
        {1, 2, 0, 32, 20, 645152000, 32, 20, 645152000},
        {1, 2, 1, 3000, 1, 500000000, 3000, 1, 500000000},
    };
    static const int64_t refixing[][SETTLEMENT_BOOK_RECORD_SIZE] = {{2, 2, 1, -500, -1, 750000000, 2500, 1, 250000000}};
    static const uint64_t reading[] = {6, 1, 0, FIRST_DAY, 0, 0, 8841, 0, 2500};
    static const uint64_t again[] = {1, 1, 0, FIRST_DAY, 0, 0, 8830, 0, 1};

    for (size_t i = 0; i < sizeof messages / sizeof messages[0]; i++) {
        accepted("message of the example", messages[i]);
    }
    round_with("fixing", fixing[0], sizeof fixing / sizeof fixing[0]);
    accepted("reading after the fixing", reading);
    round_with("refixing", refixing[0], sizeof refixing / sizeof refixing[0]);
    message("link of a day that is linked", again, 13, NOTHING);

    line_is(1, 0, 30, 19, 354830000);
    line_is(1, 1, 1000, 0, 500000000);
    line_is(2, 0, 32, 20, 645152000);
    line_is(2, 1, 2500, 1, 250000000);
    line_refused(0, 0, 6);
    line_refused(SUPPLIERS + 1, 0, 6);
    line_refused(1, ELEMENTS, 8);

    /* 19.854830 and 21.895152 kroner for the grid company's elements, and nothing for Energinet's */
    packed_is("packed sum of supplier 1", 1, 1, (const uint8_t[]){0, 0, 0, 0, 0, 0x01, 0x98, 0x5c});
    packed_is("packed sum of supplier 2", 2, 1, (const uint8_t[]){0, 0, 0, 0, 0, 0x02, 0x19, 0x0c});
    packed_is("packed sum of Energinet's", 2, 2, (const uint8_t[]){0, 0, 0, 0, 0, 0, 0, 0x0c});
}

/* One message for each question that this book can be brought to say no by. */
static void refused_messages(void) {
    static const struct {
        uint64_t question, fields[SETTLEMENT_BOOK_FIELDS_SIZE];
    } refused[] = {
        {6, {0, 1, 0, FIRST_DAY, 0, 0, FIRST_DAY, 0, 1}},                        /* kind 0 */
        {6, {1, 1, 0, FIRST_DAY, 0, 0, SETTLEMENT_BOOK_NO_DAY, 0, 1}},           /* behind the last day */
        {6, {UINT64_MAX, UINT64_MAX, UINT64_MAX, UINT64_MAX, UINT64_MAX, 0, 0, 0, 0}},
        {7, {7, 1, 0, FIRST_DAY, POINTS, 0, 0, 0, 1}},                           /* point 1 */
        {8, {2, 1, 0, FIRST_DAY, 0, ELEMENTS, FIRST_DAY, 0, 0}},                 /* element 12 */
        {9, {1, 2, 0, FIRST_DAY, 0, 0, FIRST_DAY, 0, 1}},                        /* Energinet */
        {10, {1, 1, 0, FIRST_DAY, 0, 0, FIRST_DAY - 91, 0, 1}},                  /* 91 days before */
        {11, {1, 1, 0, FIRST_DAY, 0, 0, FIRST_DAY - 1, 0, 1}},                   /* before the first state */
        {14, {2, 1, 0, FIRST_DAY, 0, 0, FIRST_DAY, 0, 0}},                       /* no day before */
        {15, {3, 1, 0, FIRST_DAY, 0, 1, FIRST_DAY, 0, 2}},                       /* a tariff */
        {16, {6, 1, 0, FIRST_DAY, 0, 0, FIRST_DAY + DAYS, 0, 1}},                /* after the month */
    };
    for (size_t i = 0; i < sizeof refused / sizeof refused[0]; i++) {
        message("message that is refused", refused[i].fields, refused[i].question, NOTHING);
    }
}

/* A round whose record has no room, and the same with room for one. */
static void short_list(void) {
    static const uint64_t reading[] = {6, 1, 0, FIRST_DAY, 0, 0, 8841, 0, 2600};
    static const int64_t later[][SETTLEMENT_BOOK_RECORD_SIZE] = {{3, 2, 1, 100, 0, 50000000, 2600, 1, 300000000}};
    accepted("reading before a short list", reading);
    length[RECORDS] = SETTLEMENT_BOOK_RECORD_SIZE - 1;
    message("round with a short list", round_message, 18, NOTHING);
    length[RECORDS] = SETTLEMENT_BOOK_RECORD_SIZE;
    round_with("round with room for one", later[0], 1);
    length[RECORDS] = shape[RECORDS].length;
}

/* Two lines return to zero after they had records, and one of them leaves it again. The rounds that are refused before it leave the list,
 * the one that has room for the first record of the two as well. */
static void balances_of_zero(void) {
    static const uint64_t first_back[] = {6, 1, 0, FIRST_DAY, 0, 0, 8840, 23, 0};
    static const uint64_t second_back[] = {6, 1, 0, FIRST_DAY, 0, 0, 8841, 0, 0};
    static const uint64_t from_grid_company[] = {8, 1, 0, FIRST_DAY, 0, 0, 0, 0, 0};
    static const int64_t zero[][SETTLEMENT_BOOK_RECORD_SIZE] = {
        {3, 1, 1, -1000, -1, 500000000, 0, 0, 0},
        {3, 2, 1, -2600, -2, 700000000, 0, 0, 0},
    };
    static const uint64_t reading[] = {6, 1, 0, FIRST_DAY, 0, 0, 8840, 23, 400};
    static const int64_t again[][SETTLEMENT_BOOK_RECORD_SIZE] = {{3, 1, 1, 400, 0, 200000000, 400, 0, 200000000}};

    accepted("reading of day 8840 taken back", first_back);
    accepted("reading of day 8841 taken back", second_back);
    message("round from the grid company", from_grid_company, 9, NOTHING);
    length[RECORDS] = 2 * SETTLEMENT_BOOK_RECORD_SIZE - 1;
    message("round with room for one of two", round_message, 18, NOTHING);
    length[RECORDS] = shape[RECORDS].length;
    round_with("round to zero", zero[0], sizeof zero / sizeof zero[0]);
    round_with("round without a record", zero[0], 0);
    accepted("reading after zero", reading);
    round_with("round from zero", again[0], 1);
}

static void periods(void) {
    static const uint64_t quantity[] = {3, 1, 0, FIRST_DAY, 0, 0, 8830, 0, 5};
    periods_at(0, 0, 1, 2);
    period_is(0, 0, FIRST_DAY, SETTLEMENT_BOOK_NO_DAY, 2);
    periods_at(1, 1, 1, 2);
    period_is(1, 1, FIRST_DAY, SETTLEMENT_BOOK_NO_DAY, 1);
    accepted("another quantity", quantity);
    periods_at(0, 0, 2, 3);
    period_is(0, 0, FIRST_DAY, 8830, 2);
    period_is(1, 0, 8830, SETTLEMENT_BOOK_NO_DAY, 5);
    periods_at(1, 2, 1, 3);
    period_is(2, 1, FIRST_DAY, SETTLEMENT_BOOK_NO_DAY, 1);
    periods_refused(POINTS, 0, 7);
    periods_refused(0, ELEMENTS, 8);
}

static void days_without_holder(void) {
    static const uint64_t late[] = {4, 2, 0, FIRST_DAY, 0, 0, 8850, 0, 0};  /* nobody */
    static const uint64_t early[] = {4, 2, 0, FIRST_DAY, 0, 0, 8845, 0, 0}; /* nobody */
    static const uint64_t again[] = {4, 2, 0, FIRST_DAY, 0, 0, 8845, 0, 2}; /* holder 2 */
    day_is(SETTLEMENT_BOOK_NO_DAY);
    accepted("no holder from day 8850", late);
    day_is(8850);
    accepted("no holder from day 8845", early);
    day_is(8845);
    accepted("a holder from day 8845 to day 8849", again);
    day_is(8850);
    asked_point = POINTS;
    refused(QUERY_DAY, "day without a holder that is refused", 7);
}

static void set_line(uint64_t supplier, uint64_t element, int64_t kroner, int64_t billionths) {
    int64_t *line = amounts(LINES) + ((supplier - 1) * ELEMENTS + element) * SETTLEMENT_BOOK_LINE_SIZE;
    line[1] = kroner;
    line[2] = billionths;
}

/* the first and the last of Energinet's elements */
#define FIRST_FEE 2
#define LAST_FEE (ELEMENTS - 1)
/* what question 5 lets a line come to, in kroner */
#define MOST_KRONER 1000000000000

/* Amounts of one line, packed and read. The line of the other owner and that of the other supplier are not counted. */
static void known_amounts(void) {
    static const struct {
        int64_t kroner, billionths, ore;
        uint8_t bytes[SETTLEMENT_BOOK_PACKED_SIZE];
    } known[] = {
        {0, 0, 0, {0, 0, 0, 0, 0, 0, 0, 0x0c}},
        {0, 10000000, 1, {0, 0, 0, 0, 0, 0, 0, 0x1c}},
        {-1, 930000000, -7, {0, 0, 0, 0, 0, 0, 0, 0x7d}},
        {1234, 560000000, 123456, {0, 0, 0, 0, 0x01, 0x23, 0x45, 0x6c}},
        {-1235, 440000000, -123456, {0, 0, 0, 0, 0x01, 0x23, 0x45, 0x6d}},
        {876543210123, 450000000, 87654321012345, {0x08, 0x76, 0x54, 0x32, 0x10, 0x12, 0x34, 0x5c}},
        {-123456789099, 240000000, -12345678909876, {0x01, 0x23, 0x45, 0x67, 0x89, 0x09, 0x87, 0x6d}},
        {MOST_KRONER, 0, 100000000000000, {0x10, 0, 0, 0, 0, 0, 0, 0x0c}},
        /* halves of an øre, and a billionth less than that, on both sides of zero */
        {0, 5000000, 1, {0, 0, 0, 0, 0, 0, 0, 0x1c}},
        {0, 4999999, 0, {0, 0, 0, 0, 0, 0, 0, 0x0c}},
        {0, 25000000, 3, {0, 0, 0, 0, 0, 0, 0, 0x3c}},
        {-1, 995000000, -1, {0, 0, 0, 0, 0, 0, 0, 0x1d}},
        {-1, 995000001, 0, {0, 0, 0, 0, 0, 0, 0, 0x0c}},
        {-1, 975000000, -3, {0, 0, 0, 0, 0, 0, 0, 0x3d}},
        /* -0.004 kroner are zero, which has no minus */
        {-1, 996000000, 0, {0, 0, 0, 0, 0, 0, 0, 0x0c}},
    };
    set_line(1, 0, 5, 0);
    set_line(2, FIRST_FEE, 6, 0);
    for (size_t i = 0; i < sizeof known / sizeof known[0]; i++) {
        set_line(1, FIRST_FEE, known[i].kroner, known[i].billionths);
        packed_is("known amount", 1, 2, known[i].bytes);
        amount_is("known amount, read", known[i].bytes, known[i].ore);
    }
    packed_is("packed sum of the other owner", 1, 1, (const uint8_t[]){0, 0, 0, 0, 0, 0, 0x50, 0x0c});
    packed_is("packed sum of the other supplier", 2, 2, (const uint8_t[]){0, 0, 0, 0, 0, 0, 0x60, 0x0c});

    /* two lines of 0.004 kroner are an øre, which either alone is not */
    set_line(1, FIRST_FEE, 0, 4000000);
    set_line(1, LAST_FEE, 0, 4000000);
    packed_is("sum that is rounded once", 1, 2, (const uint8_t[]){0, 0, 0, 0, 0, 0, 0, 0x1c});
}

/* Ten lines: the largest sums that fit, and what is beyond them. */
static void largest_amounts(void) {
    static const uint8_t largest[] = {0x99, 0x99, 0x99, 0x99, 0x99, 0x99, 0x99, 0x9c};
    static const uint8_t smallest[] = {0x99, 0x99, 0x99, 0x99, 0x99, 0x99, 0x99, 0x9d};
    for (uint64_t element = FIRST_FEE; element <= LAST_FEE; element++) {
        set_line(1, element, MOST_KRONER, 0);
        set_line(2, element, -MOST_KRONER, 0);
    }
    packed_refused("sum an øre beyond the largest", 1, 2, 24);
    packed_refused("sum an øre beyond the smallest", 2, 2, 24);
    set_line(1, LAST_FEE, MOST_KRONER - 1, 995000000);
    set_line(2, LAST_FEE, -MOST_KRONER, 5000000);
    packed_refused("sum that is rounded to an øre beyond the largest", 1, 2, 24);
    packed_refused("sum that is rounded to an øre beyond the smallest", 2, 2, 24);
    set_line(1, LAST_FEE, MOST_KRONER - 1, 994999999);
    set_line(2, LAST_FEE, -MOST_KRONER, 5000001);
    packed_is("sum that is rounded to the largest", 1, 2, largest);
    packed_is("sum that is rounded to the smallest", 2, 2, smallest);
    set_line(1, LAST_FEE, MOST_KRONER - 1, 990000000);
    set_line(2, LAST_FEE, -MOST_KRONER, 10000000);
    packed_is("largest sum", 1, 2, largest);
    packed_is("smallest sum", 2, 2, smallest);
    amount_is("largest sum, read", largest, 999999999999999);
    amount_is("smallest sum, read", smallest, -999999999999999);
}

/* Other lengths than eight are question 24, which comes behind question 6; the length of the book's numbers comes before both. */
static void packed_lengths(void) {
    static const size_t wrong[] = {0, SETTLEMENT_BOOK_PACKED_SIZE - 1, SETTLEMENT_BOOK_PACKED_SIZE + 1};
    static const uint8_t seven[] = {0, 0, 0, 0, 0, 0, 0, 0x7c};
    for (size_t i = 0; i < sizeof wrong / sizeof wrong[0]; i++) {
        length[BYTES] = length[PACKED] = wrong[i];
        packed_refused("packed sum of another length", 1, 1, 24);
        packed_refused("packed sum of supplier 0, of another length", 0, 1, 6);
        packed_refused("packed sum of owner 3, of another length", 1, 3, 6);
        length[BOOK] = SETTLEMENT_BOOK_SIZE - 1;
        packed_refused("packed sum of a short book, of another length", 0, 3, SETTLEMENT_BOOK_WRONG_LENGTH);
        length[BOOK] = SETTLEMENT_BOOK_SIZE;
        amount_refused("packed amount of another length", seven);
    }
    length[BYTES] = length[PACKED] = SETTLEMENT_BOOK_PACKED_SIZE;
    amount_is("packed amount of eight bytes", seven, 7);
    for (uint64_t owner = 1; owner <= 2; owner++) {
        packed_refused("packed sum of supplier 0", 0, owner, 6);
        packed_refused("packed sum of supplier 3", SUPPLIERS + 1, owner, 6);
    }
    packed_refused("packed sum of owner 0", 1, 0, 6);
    packed_refused("packed sum of owner 3", 1, 3, 6);
}

/* Bytes with one half-byte another, counted from the upper half of the first byte. */
static void amount_with(uint8_t bytes[SETTLEMENT_BOOK_PACKED_SIZE], int place, int half) {
    int shift = place % 2 == 0 ? 4 : 0;
    bytes[place / 2] = (uint8_t)((bytes[place / 2] & ~(0xf << shift)) | half << shift);
}

/* Every digit above 9 and every other sign, and minus zero. */
static void wrong_half_bytes(void) {
    static const uint8_t right[] = {0x12, 0x34, 0x56, 0x78, 0x90, 0x98, 0x76, 0x5c};
    static const uint8_t minus_zero[] = {0, 0, 0, 0, 0, 0, 0, 0x0d};
    uint8_t bytes[SETTLEMENT_BOOK_PACKED_SIZE];
    for (int place = 0; place < 16; place++) {
        for (int half = 0; half < 16; half++) {
            if (place < 15 ? half <= 9 : half == 0xc || half == 0xd) {
                continue;
            }
            memcpy(bytes, right, sizeof bytes);
            amount_with(bytes, place, half);
            amount_refused(place < 15 ? "digit above 9" : "another sign", bytes);
        }
    }
    amount_refused("minus zero", minus_zero);
    memcpy(bytes, right, sizeof bytes);
    amount_is("right half-bytes", bytes, 123456789098765);
    amount_with(bytes, 15, 0xd);
    amount_is("right half-bytes below zero", bytes, -123456789098765);
}

/* A book whose lines were written by hand passes question 5 as long as they are within their bounds. */
static void packed_amounts(void) {
    int64_t *kept = allocate(size_of(LINES));
    memcpy(kept, start[LINES], size_of(LINES));
    memset(start[LINES], 0, size_of(LINES));
    known_amounts();
    largest_amounts();
    packed_lengths();
    wrong_half_bytes();
    set_line(1, FIRST_FEE, MOST_KRONER, 1);
    packed_refused("packed sum of a line out of bounds", 0, 3, 5);
    memcpy(start[LINES], kept, size_of(LINES));
    free(kept);
}

/* What every function accepts but for what the next two tests change. */
static void ask_for_what_is_there(void) {
    static const uint64_t reading[] = {6, 1, 0, FIRST_DAY, 0, 0, FIRST_DAY, 0, 700};
    memcpy(start[FIELDS], reading, sizeof reading);
    asked_supplier = 1;
    asked_point = 0;
    asked_element = 0;
    asked_owner = 1;
}

/* Of every function that is lent a book, every length: none, one too few and one too many. */
static void wrong_lengths(void) {
    ask_for_what_is_there();
    for (int function = 0; function < BOOK_FUNCTIONS; function++) {
        for (int part = 0; part < PARTS; part++) {
            if (!(functions[function].slices & ONLY(part))) {
                continue;
            }
            const size_t wrong[] = {0, shape[part].length - 1, shape[part].length + 1};
            for (size_t i = 0; i < sizeof wrong / sizeof wrong[0]; i++) {
                length[part] = wrong[i];
                refused(function, functions[function].name, SETTLEMENT_BOOK_WRONG_LENGTH);
            }
            length[part] = shape[part].length;
        }
    }
}

/* A book of another century, and books whose next round has no kind, or whose first day or days are another month's: an opening asks only
 * the first. */
static void wrong_books(void) {
    static const struct {
        int at;
        uint64_t wrong;
    } slips[] = {{ROUND_AT, 0}, {FIRST_DAY_AT, FIRST_DAY - 1}, {DAYS_AT, DAYS - 1}};
    ask_for_what_is_there();
    for (int function = 0; function < BOOK_FUNCTIONS; function++) {
        numbers(BOOK)[YEAR_AT] = 1999;
        refused(function, functions[function].name, 2);
        numbers(BOOK)[YEAR_AT] = YEAR;
        for (size_t slip = 0; slip < sizeof slips / sizeof *slips && function != OPEN; slip++) {
            const uint64_t right = numbers(BOOK)[slips[slip].at];
            numbers(BOOK)[slips[slip].at] = slips[slip].wrong;
            refused(function, functions[function].name, 5);
            numbers(BOOK)[slips[slip].at] = right;
        }
    }
    call(MESSAGE, "the reading of the tests above", SETTLEMENT_BOOK_ACCEPTED, WRITTEN | ONLY(COUNT));
}

/* ---- the states that count: every one up to December 2018, connected and disconnected from January 2019 on */

static const struct side {
    uint64_t year, month;
    /* the day before the first; both months have 31 days, as March has */
    uint64_t before;
    int every_state;
} sides[] = {{2018, 12, 6908, 1}, {2019, 1, 6939, 0}};

static void open_side(const struct side *side) {
    set_month(side->year, side->month);
    call(OPEN, "opening of another month", SETTLEMENT_BOOK_ACCEPTED, WRITTEN);
}

/* A message about point 0, received on the month's first day. */
static void tell(const struct side *side, uint64_t kind, uint64_t role, uint64_t element, uint64_t day, uint64_t value, uint64_t answer) {
    const uint64_t fields[] = {kind, role, 0, side->before + 1, 0, element, side->before + day, 0, value};
    if (answer == SETTLEMENT_BOOK_ACCEPTED) {
        accepted("message of another month", fields);
    } else {
        message("message of another month that is refused", fields, answer, NOTHING);
    }
}

static void state_from(const struct side *side, uint64_t day, uint64_t state) { tell(side, 5, 1, 0, day, state, 0); }

static void holder_from(const struct side *side, uint64_t day, uint64_t supplier) { tell(side, 4, 2, 0, day, supplier, 0); }

/* So many days of the subscription, at 0.645161 kroner each. */
static void days_are(uint64_t supplier, int64_t days) {
    int64_t millionths = days * 645161;
    line_is(supplier, 0, days, millionths / 1000000, millionths % 1000000 * 1000);
}

/* New from the 5th, connected and then disconnected from the 10th, closed from the 20th on; held by supplier 1, from the 25th by 2 and
 * from the 30th by nobody. */
static void states_in_turn(const struct side *side) {
    const int every = side->every_state;
    open_side(side);
    state_from(side, 5, 1);
    tell(side, 1, 1, 0, 4, 1, 11); /* before the first state */
    tell(side, 1, 1, 0, 5, 1, SETTLEMENT_BOOK_ACCEPTED);
    tell(side, 1, 1, 1, 5, 1, SETTLEMENT_BOOK_ACCEPTED);
    tell(side, 6, 1, 0, 20, 1000, SETTLEMENT_BOOK_ACCEPTED);
    day_is(every ? side->before + 5 : SETTLEMENT_BOOK_NO_DAY);
    holder_from(side, 1, 1);
    day_is(SETTLEMENT_BOOK_NO_DAY);
    days_are(1, every ? 27 : 0);
    state_from(side, 10, 2);
    days_are(1, every ? 27 : 22);
    line_is(1, 1, 1000, 0, 500000000);
    state_from(side, 10, 3);
    days_are(1, every ? 27 : 22);
    state_from(side, 20, 4);
    days_are(1, every ? 27 : 10);
    line_is(1, 1, every ? 1000 : 0, 0, every ? 500000000 : 0);
    tell(side, 3, 1, 0, 20, 2, 12); /* a quantity, a stop and a fee on a closed day */
    tell(side, 2, 1, 0, 20, 0, 12);
    tell(side, 1, 2, 2, 31, 1, 12);
    holder_from(side, 25, 2);
    days_are(1, every ? 20 : 10);
    days_are(2, every ? 7 : 0);
    holder_from(side, 30, 0);
    days_are(2, every ? 5 : 0);
    day_is(every ? side->before + 30 : SETTLEMENT_BOOK_NO_DAY);
}

/* A period that begins before the first state: no message leads there, but a book that is lent may have it. Up to 2018 its days
 * count from the first state on, from 2019 on where the state is connected or disconnected. */
static void linked_before_the_first_state(const struct side *side) {
    open_side(side);
    numbers(LINKS)[0] = (side->before + 1) << 26 | (uint64_t)SETTLEMENT_BOOK_NO_DAY << 10 | 1;
    numbers(BOOK)[PERIODS_AT] = 1;
    periods_at(0, 0, 1, 1);
    period_is(0, 0, side->before + 1, SETTLEMENT_BOOK_NO_DAY, 1);
    day_is(SETTLEMENT_BOOK_NO_DAY);
    holder_from(side, 1, 1);
    days_are(1, 0);
    state_from(side, 10, 1);
    days_are(1, side->every_state ? 22 : 0);
    state_from(side, 20, 4);
    days_are(1, side->every_state ? 22 : 0);
    holder_from(side, 1, 0);
    days_are(1, 0);
    day_is(side->every_state ? side->before + 10 : SETTLEMENT_BOOK_NO_DAY);
    state_from(side, 10, 2);
    day_is(side->before + 10);
}

static void both_sides_of_2019(void) {
    for (size_t i = 0; i < sizeof sides / sizeof sides[0]; i++) {
        states_in_turn(&sides[i]);
        linked_before_the_first_state(&sides[i]);
    }
}

int main(void) {
    lend();
    opening();
    worked_example();
    refused_messages();
    short_list();
    balances_of_zero();
    periods();
    days_without_holder();
    packed_amounts();
    wrong_lengths();
    wrong_books();
    both_sides_of_2019();
    free(memory);
    free(copy);
    if (failed > 0) {
        return 1;
    }
    printf("%u expectations of the library from C held\n", held);
    return 0;
}
