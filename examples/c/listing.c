/*
 * Prints what the program meshplan prints for a book: the mesh, each link with its direction, and what the cut of each link leads
 * to, or the line `refused NUMBER PLACE`. The book is the file that is named, or standard input:
 *     examples/c/listing examples/triangle.book
 * The exit status is 0 where the book is accepted and planned, 1 where it is refused, and 2 where the program was called in a wrong way,
 * cannot read the file or cannot write its lines.
 */
#include "book.h"

/* The ends and the direction of a link. */
struct row {
    uint8_t low;
    uint8_t high;
    uint8_t direction;
};

/* The ends of a link that is there. */
static void find_ends(const struct book *book, uint16_t link, struct row *row)
{
    uint16_t metres, duct;
    uint32_t pair;
    size_t place;

    covetureen_link(book->bytes, book->length, link, &row->low, &row->high, &metres, &pair, &duct, &place);
}

/* The line of a cut: x and y, the deliveries, the metres of the route or a hyphen, and its links. */
static void print_cut(const struct book *book, uint16_t link, const struct row *row)
{
    uint16_t route[COVETUREEN_MOST_LINKS], count, deliveries;
    uint32_t metres;
    size_t place;
    unsigned x = row->direction == 0 ? row->low : row->high;
    unsigned y = row->direction == 0 ? row->high : row->low;

    if (covetureen_route(book->bytes, book->length, link, route, &count, &deliveries, &metres, &place) != COVETUREEN_ACCEPTED) {
        return;
    }
    printf("cut %u %u %u ", (unsigned)link, x, y);
    print_recovery(deliveries, metres, route, count);
}

/* The lines of all links, then those of all cuts. */
static void print_links(const struct book *book, uint16_t links, const uint8_t *directions)
{
    struct row rows[COVETUREEN_MOST_LINKS];
    uint16_t k;

    for (k = 0; k < links; k++) {
        find_ends(book, k, &rows[k]);
        rows[k].direction = directions[k];
        printf("link %u %u %u %u\n", (unsigned)k, (unsigned)rows[k].low, (unsigned)rows[k].high, (unsigned)rows[k].direction);
    }
    for (k = 0; k < links; k++) {
        print_cut(book, k, &rows[k]);
    }
}

static enum status print_listing(const struct book *book)
{
    uint8_t directions[COVETUREEN_MOST_LINKS], nodes, refusal;
    uint16_t links;
    size_t place;

    refusal = covetureen_plan(book->bytes, book->length, directions, &place);
    if (refusal != COVETUREEN_ACCEPTED) {
        return refuse("", refusal, place);
    }
    refusal = covetureen_mesh(book->bytes, book->length, &nodes, &links, &place);
    if (refusal != COVETUREEN_ACCEPTED) {
        return refuse("", refusal, place);
    }
    printf("mesh %u %u\n", (unsigned)nodes, (unsigned)links);
    print_links(book, links, directions);
    return ACCEPTED;
}

int main(int count, char **words)
{
    struct book book;

    if (count > 2) {
        fprintf(stderr, "usage: listing [FILE]\n");
        return FAILED;
    }
    if (!read_book(&book, count == 2 ? words[1] : NULL)) {
        return FAILED;
    }
    return written(print_listing(&book));
}
