/* The eight calls of the booking desk: setting up, booking, offering, listing, cancelling, moving the clock, showing free
 * bandwidth, and telling the sold work of a link.
 *
 * Link with libdesk.a, which `bash tools/build desk` writes to target/staticlib/.
 * A desk is a head and four tables, all of the caller, with the list of links and the guard that it was set up with. The
 * tables are events, free figures, book and totals; a total is what is sold of a link, in Mb/s times minutes. The guard is
 * the time that switches need between bookings, in minutes: a booking holds its links from its start until its guarded
 * end, which is start plus duration plus guard, and its number stands until the clock is there. A list or table is a
 * pointer and its count of elements; another count than the stated one is refused. Every call is answered, and after a
 * refusal head, tables and lent list hold what they held. Each call says its refusals, which are tried in this order:
 *   1   a table has another size than stated, or there is no link or more than 64
 *   13  the lent list has another size than stated
 *   3   head and tables are not those of a desk with these links
 *   4   a field is out of range; at a set-up, the guard is above 15
 *   2   a link has a node above 31, equal ends or a capacity out of range
 *   5   the latest start is before the earliest minute that can be tried
 *   6   the number stands
 *   7   64 bookings stand
 *   8   no possible start; with it comes the minute at which every path breaks off
 *   9   the number doesn't stand
 *   10  the minute is before the clock
 * Pointers must be valid for their counts, and what a call writes must overlap nothing else that it is lent. */
#ifndef GCR_DESK_H
#define GCR_DESK_H

#include "gcr_record.h"

#ifdef __cplusplus
extern "C" {
#endif

/* The most links, the links of a path, and the elements of the four tables and of a listing's list. */
enum { GCR_LINKS = 64, GCR_PATH_LINKS = 31, GCR_EVENTS = 129, GCR_FREE_FIGURES = 8256, GCR_BOOK_FIGURES = 2304 };
enum { GCR_TOTALS = 64, GCR_LIST_FIGURES = 258 };

/* The clock, the number of links, the number of standing bookings, and the guard, which only a set-up changes. */
struct gcr_head {
    uint32_t clock;
    uint32_t links;
    uint32_t bookings;
    uint32_t guard;
};

/* A start with its path, `count` link numbers in travel order and zero past them; start and path are zero beside a refusal
 * number. Beside 8 `at` is the minute at which it breaks off: the first, from low on (the later of the earliest start asked for
 * and the clock), such that no single path has the bandwidth free throughout low to it. It may be one of the guard's minutes.
 * Beside a start and any other refusal `at` is zero. */
struct gcr_choice {
    uint32_t refusal;
    uint32_t start;
    uint32_t count;
    uint32_t path[GCR_PATH_LINKS];
    uint32_t at;
};

/* The number of ranges that a listing has; zero beside a refusal number. */
struct gcr_listed {
    uint32_t refusal;
    uint32_t count;
};

/* A free figure in Mb/s; zero beside a refusal number. */
struct gcr_shown {
    uint32_t refusal;
    uint32_t free;
};

/* The sold work of a link, in Mb/s times minutes; zero beside a refusal number. */
struct gcr_sold {
    uint32_t refusal;
    uint64_t work;
};

/* Sets a desk up at minute 0 with no bookings and a guard of 0 to 15 minutes, whatever its tables held. Answers 0, or refuses
 * 1, 4 or 2. */
uint32_t gcr_set_up(struct gcr_head *head, const struct gcr_link *links, size_t link_count, uint32_t *events,
                    size_t event_count, uint32_t *free, size_t free_count, uint32_t *book, size_t book_count,
                    uint64_t *totals, size_t total_count, uint32_t guard);

/* Books the earliest start of the request's window. Refuses 1, 3, 4, 5, 6, 7 or 8, and 8 with its minute. An open latest start
 * is 1,000,000,000. */
struct gcr_choice gcr_book(struct gcr_head *head, const struct gcr_link *links, size_t link_count, uint32_t *events,
                           size_t event_count, uint32_t *free, size_t free_count, uint32_t *book, size_t book_count,
                           uint64_t *totals, size_t total_count, uint32_t number, struct gcr_request request);

/* A booking without commitment or number. Refuses 1, 3, 4, 5 or 8, and 8 with its minute. */
struct gcr_choice gcr_offer(const struct gcr_head *head, const struct gcr_link *links, size_t link_count,
                            const uint32_t *events, size_t event_count, const uint32_t *free, size_t free_count,
                            const uint32_t *book, size_t book_count, const uint64_t *totals, size_t total_count,
                            struct gcr_request request);

/* Every start there is: the ranges of possible start minutes of an offer's window, rising, each as long as it can be. The
 * list has 129 places of two figures, a range's first and last minute; those past the last range become zero. No possible
 * start is a count of 0. Refuses 1, 13, 3, 4 or 5, and leaves the list as it was then. */
struct gcr_listed gcr_list_starts(const struct gcr_head *head, const struct gcr_link *links, size_t link_count,
                                  const uint32_t *events, size_t event_count, const uint32_t *free, size_t free_count,
                                  const uint32_t *book, size_t book_count, const uint64_t *totals, size_t total_count,
                                  struct gcr_request request, uint32_t *list, size_t list_count);

/* Takes a booking out. Answers 0, or refuses 1, 3, 4 or 9. */
uint32_t gcr_cancel(struct gcr_head *head, const struct gcr_link *links, size_t link_count, uint32_t *events,
                    size_t event_count, uint32_t *free, size_t free_count, uint32_t *book, size_t book_count,
                    uint64_t *totals, size_t total_count, uint32_t number);

/* Moves the clock on and drops the bookings whose guarded end has come. Answers 0, or refuses 1, 3, 4 or 10. */
uint32_t gcr_move_clock(struct gcr_head *head, const struct gcr_link *links, size_t link_count, uint32_t *events,
                        size_t event_count, uint32_t *free, size_t free_count, uint32_t *book, size_t book_count,
                        uint64_t *totals, size_t total_count, uint32_t minute);

/* The bandwidth that a link has free in a minute from the clock to 1,000,525,615. Refuses 1, 3 or 4. */
struct gcr_shown gcr_show(const struct gcr_head *head, const struct gcr_link *links, size_t link_count,
                          const uint32_t *events, size_t event_count, const uint32_t *free, size_t free_count,
                          const uint32_t *book, size_t book_count, const uint64_t *totals, size_t total_count,
                          uint32_t link, uint32_t minute);

/* The sold work of a link: the sum, over the standing bookings that use it, of bandwidth times duration, the guard not counted;
 * at most 33,638,400,000,000. Refuses 1, 3 or 4. */
struct gcr_sold gcr_sold_work(const struct gcr_head *head, const struct gcr_link *links, size_t link_count,
                              const uint32_t *events, size_t event_count, const uint32_t *free, size_t free_count,
                              const uint32_t *book, size_t book_count, const uint64_t *totals, size_t total_count,
                              uint32_t link);

#ifdef __cplusplus
}
#endif

#endif
