/* Document 01's listing through the C interface: builds the book entry by entry, opens it, gives the snapshot one event after another, and prints
 * what is refused, asking after each how many bonds are open, then the page of the same book and events in one call; then a price, and the run that
 * copies most. Exit status 1 where something is not as the listing says. */
#include <stdio.h>
#include <string.h>

#include "rakhvide.h"

static const uint8_t BOOK[4 + 2 * 31] = {
    2, 0, 2, 0,
    'Z', 'Z', '0', '0', '0', '0', '0', '0', '0', '0', '1', '6',
    'Z', 'Z', '0', '0', '0', '0', '0', '0', '0', '0', '2', '4',
    /* fixed, 2 periods, coupon 4, yield 0; the third byte, 0, is two payments a year */
    2, 2, 0, 0, 0, 0, 0, 0, 0, 0x10, 0x40, 0, 0, 0, 0, 0, 0, 0, 0,
    /* zero, 2 periods, yield 0.5 */
    1, 2, 0, 0, 0, 0, 0, 0, 0, 0, 0, 0, 0, 0, 0, 0, 0, 0xe0, 0x3f,
};

static const uint8_t EVENTS[11][3] = {
    {1, 0, 0}, {2, 1, 0}, {3, 1, 0}, {3, 0, 0}, {3, 0, 0}, {3, 0, 1}, {4, 1, 0}, {5, 1, 0}, {3, 1, 0}, {3, 1, 0}, {6, 0, 0},
};

static const char PAGE[] =
    "event 11 refused 20\n"
    "ZZ0000000016 priced 405A000000000000 replica 1\n"
    "ZZ0000000024 not admitted\n"
    "open 0\n";

static uint8_t table[RAKHVIDE_TABLE];
static uint8_t page[RAKHVIDE_PAGE];

static int one_entry_after_another(void)
{
    /* from the book of no entry; a third one has no room in the buffer */
    uint8_t book[sizeof BOOK] = {2, 0, 0, 0};
    for (size_t i = 0; i < 2; i++)
        if (rakhvide_add(book, sizeof book, 4 + 31 * i, BOOK + 4 + 12 * i, 12, BOOK + 28 + 19 * i, 19) != 0)
            return 1;
    uint8_t number = rakhvide_add(book, sizeof book, sizeof book, (const uint8_t *)"US0378331005", 12, BOOK + 28, 19);
    printf("entry 3 refused %u\n", number);
    return number != 23 || memcmp(book, BOOK, sizeof book) != 0;
}

static int one_event_after_another(void)
{
    if (rakhvide_open(BOOK, sizeof BOOK, table, sizeof table) != 0)
        return 1;
    for (size_t i = 0; i < 11; i++) {
        uint8_t number = rakhvide_step(table, sizeof table, EVENTS[i], 3);
        if (number != 0)
            printf("event %zu refused %u\n", i + 1, number);
        if (number != (i == 10 ? 20 : 0) || rakhvide_check(table, sizeof table) != 0)
            return 1;
        /* one bond is open from its admission, the first event, to its RESULT, which the tenth delivers */
        if (rakhvide_open_jobs(table, sizeof table) != (i < 9 ? 1 : 0))
            return 1;
    }
    return 0;
}

static int whole_page(void)
{
    size_t written;
    if (!rakhvide_page(BOOK, sizeof BOOK, EVENTS[0], sizeof EVENTS, page, sizeof page, &written))
        return 1;
    fwrite(page, 1, written, stdout);
    return written != strlen(PAGE) || memcmp(page, PAGE, written) != 0;
}

static int one_price(void)
{
    /* coupon 20, yield 1, 1 period, 4 payments a year: (100 + 5) / 1.25 */
    uint64_t bits = rakhvide_price_fixed(1, 4, 20.0, 1.0);
    double price;
    memcpy(&price, &bits, sizeof price);
    printf("coupon 20, yield 1, 1 period, 4 payments a year: %g\n", price);
    return price != 84.0;
}

static int most_copies(void)
{
    /* the book has two machines, and one of them may die */
    uint8_t events[8][3];
    if (rakhvide_worst_run(2, 2, events[0], sizeof events) != 28 || rakhvide_worst_run(2, 1, events[0], sizeof events - 1) != 29)
        return 1;
    if (rakhvide_worst_run(2, 1, events[0], sizeof events) != 0 || rakhvide_open(BOOK, sizeof BOOK, table, sizeof table) != 0)
        return 1;
    for (size_t i = 0; i < 8; i++)
        if (rakhvide_step(table, sizeof table, events[i], 3) != 0)
            return 1;
    /* the replica number of job 0 in a snapshot: docs/LAYOUT.md */
    uint8_t replica = table[1218 + 1];
    printf("2 machines, 1 death: replica %u after 8 events\n", replica);
    return replica != 2;
}

int main(void)
{
    int faults = one_entry_after_another() + one_event_after_another() + whole_page() + one_price() + most_copies();
    faults += rakhvide_identifier((const uint8_t *)"US0378331005", 12) != 0;
    faults += rakhvide_identifier((const uint8_t *)"ZZ0000000017", 12) != 5;
    faults += rakhvide_book(BOOK, sizeof BOOK - 1) != 3;
    return faults != 0;
}
