/* Makes order files through the library, as a branch desk's program does.
 *   write_records session FILE   document 01's session, from its figures; prints the refusals of what cannot be written
 *   write_records copy FROM FILE each record of a file read, and written again from what was read */
#include <stdio.h>
#include <stdlib.h>
#include <string.h>

#include "gcr_record.h"

enum { ALL_ONES = 1073741823 };

static const struct gcr_request nothing = {0};

static struct gcr_request from_0_to_2(uint32_t bandwidth, uint32_t duration, uint32_t earliest, uint32_t latest)
{
    return (struct gcr_request){0, 2, bandwidth, duration, earliest, latest};
}

static void write_link(FILE *file, uint32_t from, uint32_t to, uint32_t capacity)
{
    uint8_t piece[8];
    if (gcr_write_link(piece, sizeof piece, (struct gcr_link){from, to, capacity}) == 0)
        fwrite(piece, 1, sizeof piece, file);
}

static void write_order(FILE *file, uint32_t kind, uint32_t number, struct gcr_request request, uint32_t open)
{
    uint8_t piece[16];
    if (gcr_write_order(piece, sizeof piece, kind, number, request, open) == 0)
        fwrite(piece, 1, sizeof piece, file);
}

/* Prints the refusal of an order in a piece of `count` bytes, and whether the piece stayed as it was. */
static void try_order(const char *what, size_t count, uint32_t kind, uint32_t number, struct gcr_request request,
                      uint32_t open)
{
    uint8_t piece[17], before[17];
    memset(piece, 0xA5, sizeof piece);
    memcpy(before, piece, sizeof piece);
    uint32_t refusal = gcr_write_order(piece, count, kind, number, request, open);
    printf("%s: %u, %s\n", what, refusal, memcmp(piece, before, sizeof piece) == 0 ? "untouched" : "written");
}

static void try_link(const char *what, size_t count, struct gcr_link link)
{
    uint8_t piece[9], before[9];
    memset(piece, 0xA5, sizeof piece);
    memcpy(before, piece, sizeof piece);
    uint32_t refusal = gcr_write_link(piece, count, link);
    printf("%s: %u, %s\n", what, refusal, memcmp(piece, before, sizeof piece) == 0 ? "untouched" : "written");
}

static void session(FILE *file)
{
    putc(3, file); /* links */
    putc(0, file); /* minutes of guard */
    write_link(file, 0, 1, 10);
    write_link(file, 1, 2, 10);
    write_link(file, 0, 2, 4);
    write_order(file, GCR_BOOK, 7, from_0_to_2(4, 10, 0, 0), 1);
    write_order(file, GCR_BOOK, 9, from_0_to_2(6, 5, 0, 0), 1);
    write_order(file, GCR_BOOK, 3, from_0_to_2(5, 4, 2, 4), 0);
    write_order(file, GCR_BOOK, 3, from_0_to_2(5, 4, 2, 5), 0);
    write_order(file, GCR_CANCEL, 9, nothing, 0);
    write_order(file, GCR_OFFER, 0, from_0_to_2(4, 3, 0, 0), 0);
    write_order(file, GCR_CLOCK, 0, (struct gcr_request){.earliest = 10}, 0);
    write_order(file, GCR_CANCEL, 7, nothing, 0);
}

static void refusals(void)
{
    struct gcr_request asked = from_0_to_2(4, 10, 0, 5);
    struct gcr_request wide = asked, ones = asked;
    wide.bandwidth = 1 << 20;
    ones.latest = ALL_ONES;
    try_order("a piece of 16 bytes", 16, GCR_BOOK, 7, asked, 0);
    try_order("a piece of 15 bytes, kind 5", 15, 5, 7, wide, 0);
    try_order("a piece of 17 bytes", 17, GCR_BOOK, 7, asked, 0);
    try_order("kind 5 with a bandwidth of 21 bits", 16, 5, 7, wide, 0);
    try_order("an offer with a number", 16, GCR_OFFER, 7, asked, 0);
    try_order("a cancellation with an open latest start", 16, GCR_CANCEL, 7, nothing, 1);
    try_order("a bandwidth of 21 bits", 16, GCR_BOOK, 7, wide, 0);
    try_order("a number of 15 bits", 16, GCR_BOOK, 1 << 14, asked, 0);
    try_order("a given latest start of all ones", 16, GCR_BOOK, 7, ones, 0);
    try_order("the same as open", 16, GCR_BOOK, 7, ones, 1);
    try_link("a link in 8 bytes", 8, (struct gcr_link){31, 30, 1048575});
    try_link("a link in 9 bytes, a node of 6 bits", 9, (struct gcr_link){32, 1, 10});
    try_link("a node of 6 bits", 8, (struct gcr_link){1, 32, 10});
    try_link("a capacity of 21 bits", 8, (struct gcr_link){0, 1, 1048576});
}

/* A record that is refused stays out of the copy. */
static void copy(FILE *from, FILE *file)
{
    uint8_t piece[16];
    int links = getc(from), guard = getc(from);
    if (guard == EOF)
        return;
    putc(links, file);
    putc(guard, file);
    for (int i = 0; i < links; i++) {
        size_t got = fread(piece, 1, 8, from);
        struct gcr_link_record record = gcr_read_link(piece, got);
        if (record.refusal == 0)
            write_link(file, record.link.from, record.link.to, record.link.capacity);
    }
    size_t got;
    while ((got = fread(piece, 1, 16, from)) > 0) {
        struct gcr_order_record record = gcr_read_order(piece, got);
        if (record.refusal == 0)
            write_order(file, record.kind, record.number, record.request, record.latest_open);
    }
}

static FILE *opened(const char *name, const char *mode)
{
    FILE *file = fopen(name, mode);
    if (file == NULL) {
        perror(name);
        exit(2);
    }
    return file;
}

int main(int count, char **words)
{
    int copies = count == 4 && strcmp(words[1], "copy") == 0;
    if (!copies && !(count == 3 && strcmp(words[1], "session") == 0)) {
        fprintf(stderr, "usage: write_records session FILE | write_records copy FROM FILE\n");
        return 2;
    }
    FILE *from = copies ? opened(words[2], "rb") : NULL;
    FILE *file = opened(words[count - 1], "wb");
    if (copies) {
        copy(from, file);
        fclose(from);
    } else {
        session(file);
        refusals();
    }
    return fclose(file) == 0 ? 0 : 2;
}
