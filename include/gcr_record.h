/* The records of the booking desk: links and orders, read from bytes of any number and written into a lent piece of bytes.
 *
 * Link with librecord.a, which `bash tools/build record` writes to target/staticlib/. Refusals, the first that applies:
 *   12  not exactly 16 bytes (8 for a link)
 *   11  an unknown kind, or a field that is filled and that the kind does not use (for a link that is read, a bit that is
 *       set where zero is due)
 *    4  writing only: a figure too large for its field, or a given latest start of 1,073,741,823, which would be read as
 *       open
 * The pointer must be valid for `count` bytes; no byte past them is read or written. */
#ifndef GCR_RECORD_H
#define GCR_RECORD_H

#include <stddef.h>
#include <stdint.h>

#ifdef __cplusplus
extern "C" {
#endif

enum gcr_order_kind { GCR_BOOK = 1, GCR_CANCEL = 2, GCR_CLOCK = 3, GCR_OFFER = 4 };

/* A link from one node to another, one way; the capacity is in Mb/s. */
struct gcr_link {
    uint32_t from;
    uint32_t to;
    uint32_t capacity;
};

/* What a customer asks for; minutes, and Mb/s. */
struct gcr_request {
    uint32_t from;
    uint32_t to;
    uint32_t bandwidth;
    uint32_t duration;
    uint32_t earliest;
    uint32_t latest;
};

/* A booking and an offer use the request, a cancellation the number alone, and a clock move `earliest` alone, which
 * holds the new minute. What a kind does not use is zero. An open latest start is 1,000,000,000 with `latest_open` 1. */
struct gcr_order_record {
    uint32_t refusal;
    uint32_t kind;
    uint32_t number;
    struct gcr_request request;
    uint32_t latest_open;
};

struct gcr_link_record {
    uint32_t refusal;
    struct gcr_link link;
};

/* Reads a record. `refusal` is 0 if it was read; a refusal has its number there and zero in every other field. */
struct gcr_order_record gcr_read_order(const uint8_t *bytes, size_t count);
struct gcr_link_record gcr_read_link(const uint8_t *bytes, size_t count);

/* Writes a record over the piece and answers 0; or answers the number of a refusal and leaves the piece as it is. A latest
 * start is given if `latest_open` is 0; otherwise it is open, and the request's `latest` is not looked at. What a kind does
 * not use must be zero, `latest_open` too. Whether a desk would take the order is not asked.
 *
 * What was written is read back as it was given; an open latest start comes back as `latest` 1,000,000,000 and
 * `latest_open` 1. What was read, given as it came, is written as the same bytes. */
uint32_t gcr_write_order(uint8_t *bytes, size_t count, uint32_t kind, uint32_t number, struct gcr_request request,
                         uint32_t latest_open);
uint32_t gcr_write_link(uint8_t *bytes, size_t count, struct gcr_link link);

#ifdef __cplusplus
}
#endif

#endif
