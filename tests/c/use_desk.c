/* Runs document 01's session on a desk, as the station's daemon does, with some figures shown, starts listed and sold work
 * asked for on the way, then some calls under a guard of two minutes, some that break off there and some on a wide link, and
 * prints what each call answered. */
#include <inttypes.h>
#include <stdio.h>

#include "gcr_desk.h"

enum { OPEN = 1000000000 };

/* A desk, and the arguments that lend it. */
static struct gcr_head head;
static uint32_t events[GCR_EVENTS], free_figures[GCR_FREE_FIGURES], book[GCR_BOOK_FIGURES];
static uint64_t totals[GCR_TOTALS];
static const struct gcr_link triangle[] = {{0, 1, 10}, {1, 2, 10}, {0, 2, 4}}, wide[] = {{0, 2, 1000000}};
static const struct gcr_link *links = triangle;
static size_t link_count = sizeof triangle / sizeof *triangle;

#define LINKS links, link_count
#define TABLES events, GCR_EVENTS, free_figures, GCR_FREE_FIGURES, book, GCR_BOOK_FIGURES, totals, GCR_TOTALS

static void print_start(const struct gcr_choice *choice)
{
    printf(" start %u links", choice->start);
    for (uint32_t i = 0; i < choice->count; i++)
        printf(" %u", choice->path[i]);
    if (choice->at != 0)
        printf(" with a minute");
    putchar('\n');
}

/* The number of a refusal, and the minute of an 8; one beside another number should not be there. */
static void print_refusal(unsigned place, const struct gcr_choice *choice)
{
    printf("%u refused %u", place, choice->refusal);
    if (choice->refusal == 8 || choice->at != 0)
        printf(" at %u", choice->at);
    putchar('\n');
}

static struct gcr_request request(uint32_t bandwidth, uint32_t duration, uint32_t earliest, uint32_t latest)
{
    return (struct gcr_request){0, 2, bandwidth, duration, earliest, latest};
}

static void book_one(unsigned place, uint32_t number, struct gcr_request asked)
{
    struct gcr_choice choice = gcr_book(&head, LINKS, TABLES, number, asked);
    if (choice.refusal != 0) {
        print_refusal(place, &choice);
        return;
    }
    printf("%u booked %u", place, number);
    print_start(&choice);
}

static void offer_one(unsigned place, struct gcr_request asked)
{
    struct gcr_choice choice = gcr_offer(&head, LINKS, TABLES, asked);
    if (choice.refusal != 0) {
        print_refusal(place, &choice);
        return;
    }
    printf("%u offer", place);
    print_start(&choice);
}

static void cancel_one(unsigned place, uint32_t number)
{
    uint32_t refusal = gcr_cancel(&head, LINKS, TABLES, number);
    if (refusal != 0)
        printf("%u refused %u\n", place, refusal);
    else
        printf("%u cancelled %u\n", place, number);
}

static void move_clock(unsigned place, uint32_t minute)
{
    uint32_t refusal = gcr_move_clock(&head, LINKS, TABLES, minute);
    if (refusal != 0)
        printf("%u refused %u\n", place, refusal);
    else
        printf("%u clock %u\n", place, minute);
}

static void show(uint32_t link, uint32_t minute)
{
    struct gcr_shown shown = gcr_show(&head, LINKS, TABLES, link, minute);
    if (shown.refusal != 0)
        printf("  link %u minute %u refused %u\n", link, minute, shown.refusal);
    else
        printf("  link %u minute %u free %u\n", link, minute, shown.free);
}

/* The work beside a refusal should be zero. */
static void sold_work(uint32_t link)
{
    struct gcr_sold sold = gcr_sold_work(&head, LINKS, TABLES, link);
    printf("  link %u", link);
    if (sold.refusal != 0)
        printf(" refused %u", sold.refusal);
    printf(" sold %" PRIu64 "\n", sold.work);
}

/* Lists the starts of a request's window into the first so many figures of a list that held ones. */
static void list_starts(struct gcr_request asked, size_t figures)
{
    static uint32_t list[GCR_LIST_FIGURES + 1];
    size_t ones = 0, zeros = 0;
    for (size_t i = 0; i <= GCR_LIST_FIGURES; i++)
        list[i] = 1;
    struct gcr_listed listed = gcr_list_starts(&head, LINKS, TABLES, asked, list, figures);
    if (listed.refusal != 0) {
        for (size_t i = 0; i <= GCR_LIST_FIGURES; i++)
            ones += list[i] == 1;
        printf("  starts refused %u ranges %u ones %zu\n", listed.refusal, listed.count, ones);
        return;
    }
    for (size_t i = 2 * listed.count; i < figures; i++)
        zeros += list[i] == 0;
    printf("  starts");
    for (uint32_t i = 0; i < listed.count; i++)
        printf(" %u to %u", list[2 * i], list[2 * i + 1]);
    printf(" zeros %zu\n", zeros);
}

static void print_head(void)
{
    printf("  head clock %u links %u bookings %u guard %u\n", head.clock, head.links, head.bookings, head.guard);
}

static void refused_set_ups(void)
{
    static const struct gcr_link looped = {3, 3, 10}, many[GCR_LINKS + 1];
    printf("no link refused %u\n", gcr_set_up(&head, links, 0, TABLES, 0));
    printf("65 links, guard 16 refused %u\n", gcr_set_up(&head, many, GCR_LINKS + 1, TABLES, 16));
    printf("a short table refused %u\n", gcr_set_up(&head, LINKS, events, GCR_EVENTS - 1, free_figures,
                                                    GCR_FREE_FIGURES, book, GCR_BOOK_FIGURES, totals, GCR_TOTALS, 0));
    printf("short totals refused %u\n", gcr_set_up(&head, LINKS, events, GCR_EVENTS, free_figures, GCR_FREE_FIGURES,
                                                   book, GCR_BOOK_FIGURES, totals, GCR_TOTALS - 1, 0));
    printf("guard 16 refused %u\n", gcr_set_up(&head, LINKS, TABLES, 16));
    printf("equal ends, guard 16 refused %u\n", gcr_set_up(&head, &looped, 1, TABLES, 16));
    printf("equal ends, guard 15 refused %u\n", gcr_set_up(&head, &looped, 1, TABLES, 15));
    offer_one(0, request(4, 10, 0, OPEN));
}

static int session(void)
{
    if (gcr_set_up(&head, LINKS, TABLES, 0) != 0)
        return 1;
    printf("desk links %u\n", head.links);
    sold_work(2);
    book_one(1, 7, request(4, 10, 0, OPEN));
    sold_work(2);
    show(2, 9);
    show(2, 10);
    book_one(2, 9, request(6, 5, 0, OPEN));
    book_one(3, 3, request(5, 4, 2, 4));
    book_one(4, 3, request(5, 4, 2, 5));
    print_head();
    sold_work(0);
    sold_work(1);
    sold_work(2);
    sold_work(3);
    show(0, 4);
    show(1, 5);
    cancel_one(5, 9);
    sold_work(0);
    show(0, 4);
    list_starts(request(6, 2, 0, OPEN), GCR_LIST_FIGURES);
    list_starts(request(6, 2, 4, 8), GCR_LIST_FIGURES);
    list_starts(request(6, 2, 0, OPEN), GCR_LIST_FIGURES - 1);
    list_starts(request(0, 2, 0, OPEN), GCR_LIST_FIGURES + 1);
    list_starts(request(0, 2, 0, OPEN), GCR_LIST_FIGURES);
    list_starts(request(6, 2, 9, 8), GCR_LIST_FIGURES);
    offer_one(6, request(4, 3, 0, 0));
    show(0, 0);
    move_clock(7, 10);
    print_head();
    sold_work(0);
    sold_work(2);
    show(2, 9);
    show(2, 10);
    show(3, 10);
    cancel_one(8, 7);
    move_clock(9, 9);
    list_starts(request(10, 2, 0, 12), GCR_LIST_FIGURES);
    events[0]++;
    offer_one(10, request(4, 3, 0, OPEN));
    list_starts(request(4, 3, 0, OPEN), GCR_LIST_FIGURES - 1);
    list_starts(request(4, 3, 0, OPEN), GCR_LIST_FIGURES);
    sold_work(3);
    events[0]--;
    sold_work(0);
    totals[GCR_TOTALS - 1]++;
    sold_work(0);
    return 0;
}

/* Links 0 and 1 are sold full for minutes 0 to 9; the next booking starts at 12, and the first stands until then. */
static int guarded(void)
{
    if (gcr_set_up(&head, LINKS, TABLES, 2) != 0)
        return 1;
    printf("desk links %u guard %u\n", head.links, head.guard);
    book_one(1, 1, request(10, 10, 0, OPEN));
    show(0, 11);
    show(0, 12);
    book_one(2, 2, request(10, 5, 0, 11));
    book_one(3, 2, request(10, 5, 0, OPEN));
    list_starts(request(10, 5, 0, OPEN), GCR_LIST_FIGURES);
    sold_work(0);
    move_clock(4, 10);
    print_head();
    sold_work(0);
    book_one(5, 1, request(10, 1, 0, OPEN));
    move_clock(6, 12);
    print_head();
    sold_work(0);
    sold_work(2);
    cancel_one(7, 1);
    show(0, 1000525615);
    show(0, 1000525616);
    head.guard = 3;
    offer_one(8, request(4, 3, 0, OPEN));
    return 0;
}

/* Links 0 and 1 are sold full for minutes 20 to 24. A path up to there breaks off in the last minute of 11, or in the guard
 * behind 10; 11 Mb/s break off at once. */
static int broken_off(void)
{
    if (gcr_set_up(&head, LINKS, TABLES, 2) != 0)
        return 1;
    printf("desk links %u guard %u\n", head.links, head.guard);
    book_one(1, 1, request(10, 5, 20, 20));
    offer_one(2, request(10, 11, 10, 10));
    offer_one(3, request(10, 10, 10, 12));
    offer_one(4, request(10, 8, 10, 10));
    offer_one(5, request(11, 1, 7, OPEN));
    move_clock(6, 9);
    book_one(7, 2, request(11, 1, 7, OPEN));
    book_one(8, 2, request(4, 20, 9, 9));
    offer_one(9, request(4, 12, 9, 9));
    book_one(10, 0, request(4, 12, 9, 9));
    return 0;
}

/* All of a wide link, sold for a year and then for another, is more than 32 bits tell. */
static int sold_wide(void)
{
    links = wide;
    link_count = sizeof wide / sizeof *wide;
    if (gcr_set_up(&head, LINKS, TABLES, 15) != 0)
        return 1;
    printf("desk links %u guard %u\n", head.links, head.guard);
    book_one(1, 1, request(1000000, 525600, 0, OPEN));
    sold_work(0);
    book_one(2, 2, request(1000000, 525600, 0, OPEN));
    sold_work(0);
    move_clock(3, 525614);
    sold_work(0);
    move_clock(4, 525615);
    sold_work(0);
    sold_work(1);
    cancel_one(5, 2);
    sold_work(0);
    return 0;
}

int main(void)
{
    refused_set_ups();
    return session() != 0 || guarded() != 0 || broken_off() != 0 || sold_wide() != 0;
}
