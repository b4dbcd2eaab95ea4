/* Reads the links and orders of a file through the library, as the station's daemon does, and prints what each record
 * holds. A first byte counts the links, and the second is the guard. */
#include <stdio.h>

#include "gcr_record.h"

static void print_request(const struct gcr_order_record *order)
{
    const struct gcr_request *r = &order->request;
    printf(" from %u to %u bandwidth %u duration %u earliest %u latest %u%s", r->from, r->to, r->bandwidth, r->duration,
           r->earliest, r->latest, order->latest_open ? " open" : "");
}

static void print_order(unsigned place, const struct gcr_order_record *order)
{
    printf("order %u", place);
    if (order->refusal != 0) {
        printf(" refused %u", order->refusal);
    } else {
        switch (order->kind) {
        case GCR_BOOK:
            printf(" book %u", order->number);
            print_request(order);
            break;
        case GCR_CANCEL:
            printf(" cancel %u", order->number);
            break;
        case GCR_CLOCK:
            printf(" clock %u", order->request.earliest);
            break;
        case GCR_OFFER:
            printf(" offer");
            print_request(order);
            break;
        }
    }
    putchar('\n');
}

int main(int count, char **words)
{
    FILE *file = count == 2 ? fopen(words[1], "rb") : NULL;
    if (file == NULL) {
        fprintf(stderr, "usage: read_records FILE\n");
        return 2;
    }
    uint8_t piece[16];
    int links = getc(file);
    printf("guard %d\n", getc(file));
    for (int i = 0; i < links; i++) {
        size_t got = fread(piece, 1, 8, file);
        struct gcr_link_record record = gcr_read_link(piece, got);
        if (record.refusal != 0)
            printf("link %d refused %u\n", i, record.refusal);
        else
            printf("link %d from %u to %u capacity %u\n", i, record.link.from, record.link.to, record.link.capacity);
    }
    size_t got;
    for (unsigned place = 1; (got = fread(piece, 1, 16, file)) > 0; place++) {
        struct gcr_order_record record = gcr_read_order(piece, got);
        print_order(place, &record);
    }
    fclose(file);
    return 0;
}
