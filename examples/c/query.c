/*
 * Asks one thing of a book, and prints what the programs survey, dig and bus print for it (docs/CORPUS.md): its parts and bridging
 * links, the links that share the duct of a link, or the collection route from a root; or the route after the cut of a link, as a line
 * `route LINK accepted DELIVERIES METRES LINK ..`. The book is the file that is named, or standard input:
 *     examples/c/query survey examples/apart.book
 *     examples/c/query route 0 examples/campus.book
 *     examples/c/query ducts 13 examples/campus.book
 *     examples/c/query collect 0 examples/folded-bus.book
 * The exit status is 0 where the question is accepted, 1 where the book or the question is refused, and 2 where the program was called in a
 * wrong way, cannot read the file or cannot write its lines.
 */
#include <stdlib.h>
#include <string.h>

#include "book.h"

/* The line of a link that is there. */
static void print_link(const struct book *book, uint16_t link)
{
    uint8_t low, high;
    uint16_t metres, duct;
    uint32_t pair;
    size_t place;

    if (covetureen_link(book->bytes, book->length, link, &low, &high, &metres, &pair, &duct, &place) != COVETUREEN_ACCEPTED) {
        return;
    }
    printf("link %u %u %u %u %lu %u\n", (unsigned)link, (unsigned)low, (unsigned)high, (unsigned)metres, (unsigned long)pair,
           (unsigned)duct);
}

/* The line of the part whose lowest node is v, where it is one. */
static void print_part(const uint8_t *parts, uint8_t nodes, uint8_t v)
{
    uint8_t u;

    if (parts[v] != v) {
        return;
    }
    printf("part");
    for (u = 0; u < nodes; u++) {
        if (parts[u] == v) {
            printf(" %u", (unsigned)u);
        }
    }
    printf("\n");
}

/* The line of a bridging link. */
static void print_bridge(const struct book *book, uint16_t link)
{
    uint8_t low, high;
    uint16_t metres, duct;
    uint32_t pair;
    size_t place;

    if (covetureen_link(book->bytes, book->length, link, &low, &high, &metres, &pair, &duct, &place) == COVETUREEN_ACCEPTED) {
        printf("bridge %u %u %u\n", (unsigned)link, (unsigned)low, (unsigned)high);
    }
}

static enum status print_survey(const struct book *book)
{
    uint8_t parts[COVETUREEN_MOST_NODES], bridges[COVETUREEN_MOST_LINKS], nodes, v, refusal;
    uint16_t links, k;
    unsigned many_parts = 0, many_bridges = 0;
    size_t place;

    refusal = covetureen_mesh(book->bytes, book->length, &nodes, &links, &place);
    if (refusal == COVETUREEN_ACCEPTED) {
        refusal = covetureen_survey(book->bytes, book->length, parts, bridges, &place);
    }
    if (refusal != COVETUREEN_ACCEPTED) {
        return refuse("read ", refusal, place);
    }
    for (v = 0; v < nodes; v++) {
        many_parts += parts[v] == v;
    }
    for (k = 0; k < links; k++) {
        many_bridges += bridges[k];
    }
    printf("survey %u %u\n", many_parts, many_bridges);
    for (v = 0; v < nodes; v++) {
        print_part(parts, nodes, v);
    }
    for (k = 0; k < links; k++) {
        if (bridges[k] == 1) {
            print_bridge(book, k);
        }
    }
    return ACCEPTED;
}

static enum status print_sharing(const struct book *book, uint16_t link)
{
    uint16_t links[COVETUREEN_MOST_LINKS];
    size_t count, place, i;
    uint8_t refusal = covetureen_ducts(book->bytes, book->length, link, links, &count, &place);

    printf("sharing %u ", (unsigned)link);
    if (refusal != COVETUREEN_ACCEPTED) {
        return refuse("", refusal, place);
    }
    printf("accepted %zu\n", count);
    for (i = 0; i < count; i++) {
        print_link(book, links[i]);
    }
    return ACCEPTED;
}

static enum status print_collection(const struct book *book, uint16_t root)
{
    uint8_t route[COVETUREEN_MOST_ENTRIES];
    bool tree[COVETUREEN_MOST_LINKS];
    size_t count, place, i;
    uint8_t refusal = covetureen_collect(book->bytes, book->length, (uint8_t)root, route, tree, &count, &place);
    uint16_t k;

    printf("collect %u ", (unsigned)root);
    if (refusal != COVETUREEN_ACCEPTED) {
        return refuse("", refusal, place);
    }
    printf("accepted %zu\nroute", count);
    for (i = 0; i < count; i++) {
        printf(" %u", (unsigned)route[i]);
    }
    printf("\n");
    for (k = 0; k < COVETUREEN_MOST_LINKS; k++) {
        if (tree[k]) {
            print_link(book, k);
        }
    }
    return ACCEPTED;
}

/* The route after the cut of a link: its deliveries, its metres or -, and its links. */
static enum status print_route(const struct book *book, uint16_t link)
{
    uint16_t route[COVETUREEN_MOST_LINKS], count, deliveries;
    uint32_t metres;
    size_t place;
    uint8_t refusal = covetureen_route(book->bytes, book->length, link, route, &count, &deliveries, &metres, &place);

    printf("route %u ", (unsigned)link);
    if (refusal != COVETUREEN_ACCEPTED) {
        return refuse("", refusal, place);
    }
    printf("accepted ");
    print_recovery(deliveries, metres, route, count);
    return ACCEPTED;
}

/* A decimal number of at most so much. */
static bool read_number(const char *word, unsigned long most, uint16_t *number)
{
    char *end;
    unsigned long value = strtoul(word, &end, 10);

    *number = (uint16_t)value;
    return word[0] >= '0' && word[0] <= '9' && *end == 0 && value <= most;
}

/* What is asked of a book, and of which link or root. */
struct question {
    enum { SURVEY, ROUTE, DUCTS, COLLECT } kind;
    uint16_t number;
};

/* The question that the words ask. Answers how many words it takes, 0 where they ask none. */
static int read_question(int count, char **words, struct question *question)
{
    if (count > 0 && strcmp(words[0], "survey") == 0) {
        question->kind = SURVEY;
        return 1;
    }
    if (count > 1 && strcmp(words[0], "route") == 0 && read_number(words[1], 65535, &question->number)) {
        question->kind = ROUTE;
        return 2;
    }
    if (count > 1 && strcmp(words[0], "ducts") == 0 && read_number(words[1], 65535, &question->number)) {
        question->kind = DUCTS;
        return 2;
    }
    if (count > 1 && strcmp(words[0], "collect") == 0 && read_number(words[1], 255, &question->number)) {
        question->kind = COLLECT;
        return 2;
    }
    return 0;
}

static enum status answer(const struct book *book, const struct question *question)
{
    size_t place;
    uint8_t refusal = covetureen_check(book->bytes, book->length, &place);

    if (refusal != COVETUREEN_ACCEPTED) {
        return refuse("read ", refusal, place);
    }
    switch (question->kind) {
    case SURVEY:
        return print_survey(book);
    case ROUTE:
        return print_route(book, question->number);
    case DUCTS:
        return print_sharing(book, question->number);
    default:
        return print_collection(book, question->number);
    }
}

int main(int count, char **words)
{
    struct book book;
    struct question question;
    int taken = read_question(count - 1, words + 1, &question);

    if (taken == 0 || count > taken + 2) {
        fprintf(stderr, "usage: query survey [FILE] | query route LINK [FILE] | query ducts LINK [FILE] | query collect ROOT [FILE]\n");
        return FAILED;
    }
    if (!read_book(&book, count == taken + 2 ? words[taken + 1] : NULL)) {
        return FAILED;
    }
    return written(answer(&book, &question));
}
