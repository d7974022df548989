/*
 * covetureen.h - the functions of Covetureen that need no session, for C and C++.
 *
 *     (cd crates/covetureen_c && rt lib)
 *     cp crates/covetureen_c/out/libcovetureen_c.a libcovetureen.a
 *     cc -std=c99 -I include program.c -L . -lcovetureen
 *
 * Each function reads a book: the bytes of a mesh's table, as scripts/book writes it from a text table. It answers 0 where it
 * accepts, else the number of the refusal, one of enum covetureen_refusal. In either case it stores the place of the refusal, 0 where
 * it accepts. Where it refuses, everything else that was lent to it holds what it held before; where it accepts, every entry of every
 * array that was lent to it is stored, also those past the last link, node or entry, as its comment says.
 *
 * All of this is proved of the functions, for every book (crates/covetureen, which crates/covetureen_c exports). That these
 * declarations are those of the functions is tested by scripts/interface. What the caller has to keep, since no function can test it:
 *   - no pointer is null, not even that of a book of length 0;
 *   - `length` is the number of bytes that may be read at `book`, and each array has the number of entries that its declaration says;
 *   - nothing that is stored to overlaps the book or another parameter.
 * What an array or a number holds before a call is not read.
 *
 * The functions keep nothing between calls, use no heap and call nothing but memcpy and memset: any number of threads may call them at
 * the same time, with arrays of their own. A call has been seen to need 24,056 bytes of stack at most, as an earlier kit
 * compiled it: COVETUREEN_STACK suffices.
 */
#ifndef COVETUREEN_H
#define COVETUREEN_H

#include <stdbool.h>
#include <stddef.h>
#include <stdint.h>

/* The most nodes, links and bytes of a book, and the most entries of a collection route. */
#define COVETUREEN_MOST_NODES 64
#define COVETUREEN_MOST_LINKS 256
#define COVETUREEN_LONGEST_BOOK 2820
#define COVETUREEN_MOST_ENTRIES 127

/* The metres of a route with a link that is not measured. */
#define COVETUREEN_NOT_KNOWN 4294967295u

/* Bytes of stack that suffice for a call. */
#define COVETUREEN_STACK 65536

/*
 * The refusals, with their numbers. README.md, "How to read a refusal", says of each what its place is and what to look at.
 * reading: 1 to 10, by every function. plan and route: then 20 and 21. link, route and ducts: then 12. collect: then 6, with
 * place 0 for the root, and 20. The others are those of outputs that a caller measures, of records and of sessions, and come from no
 * function here.
 */
enum covetureen_refusal {
    COVETUREEN_ACCEPTED = 0,
    COVETUREEN_BOOK_ENDS = 1,         /* the book ends too early */
    COVETUREEN_VERSION = 2,           /* the version is not 1 */
    COVETUREEN_NODES = 3,             /* the number of nodes is not 2 to 64 */
    COVETUREEN_LINKS = 4,             /* more than 256 links */
    COVETUREEN_RESERVED_BIT = 5,      /* a reserved bit is set */
    COVETUREEN_NO_NODE = 6,           /* an end of a link, or a root, is no node */
    COVETUREEN_ENDS = 7,              /* the low end is not below the high end */
    COVETUREEN_ORDER = 8,             /* the pair is below the previous one */
    COVETUREEN_NOT_SHORTEST = 9,      /* a field is written that equals its absent value */
    COVETUREEN_EXTRA_BYTES = 10,      /* bytes follow the last record */
    COVETUREEN_OUTPUT_TOO_SHORT = 11, /* the output is too short */
    COVETUREEN_NO_LINK = 12,          /* no such link */
    COVETUREEN_ILL_FORMED = 13,       /* an ill-formed record */
    COVETUREEN_NO_WAVELENGTH = 14,    /* no such wavelength */
    COVETUREEN_APART = 20,            /* some two nodes have no path between them */
    COVETUREEN_BRIDGED = 21,          /* the mesh falls apart without some link */
    COVETUREEN_CUT_STANDS = 22,       /* a cut stands */
    COVETUREEN_NO_CUT = 23,           /* no cut stands */
    COVETUREEN_NOT_UNDER_WAY = 24,    /* the link is not under way */
    COVETUREEN_NOT_AT_REST = 25,      /* not at rest */
    COVETUREEN_NOT_THE_CUT = 26       /* not the cut link */
};

#ifdef __cplusplus
extern "C" {
#endif

/* Reads a book and checks it. Refuses what reading refuses: 1 to 10. */
uint8_t covetureen_check(const uint8_t *book, size_t length, size_t *place);

/* How many nodes and links the mesh of a book has: the nodes are 0 to *nodes - 1, the links 0 to *links - 1. Reading's refusals. */
uint8_t covetureen_mesh(const uint8_t *book, size_t length, uint8_t *nodes, uint16_t *links, size_t *place);

/*
 * A link: its low and its high end, its length in metres (0: not measured), its fibre pair and its duct (0: none).
 * Reading's refusals, then 12 with the link as its place.
 */
uint8_t covetureen_link(const uint8_t *book, size_t length, uint16_t link, uint8_t *low, uint8_t *high, uint16_t *metres,
                        uint32_t *pair, uint16_t *duct, size_t *place);

/*
 * The plan: for each link 0 where the stream goes from its low to its high end, 1 where it goes from its high to its low end, and
 * 0 past the last link. Reading's refusals, then 20 with the lowest node that node 0 does not reach, and 21 with the lowest link
 * without which the mesh falls apart.
 */
uint8_t covetureen_plan(const uint8_t *book, size_t length, uint8_t directions[COVETUREEN_MOST_LINKS], size_t *place);

/*
 * The recovery from the cut of one link, on the plan: an unhindered run. Of wavelength 1 it stores the links of the new route from x
 * on, zeros past them, how many they are, how many deliveries were made, and the length of the route in metres,
 * COVETUREEN_NOT_KNOWN where a link of it is not measured. x and y, the ends of the cut link that lose and miss the stream, are its
 * low and its high end where its direction is 0, else its high and its low end. The plan's refusals, then 12 with the link as its place.
 */
uint8_t covetureen_route(const uint8_t *book, size_t length, uint16_t link, uint16_t route[COVETUREEN_MOST_LINKS], uint16_t *count,
                         uint16_t *deliveries, uint32_t *metres, size_t *place);

/*
 * The survey: for each node the lowest node of its part, 0 past the last node, and for each link 1 where no path joins its ends without
 * it, else 0, and 0 past the last link. A mesh whose nodes all have part 0 and that has no bridging link is one that plan accepts. It
 * names all that stands behind refusals 20 and 21, and gives neither: reading's refusals.
 */
uint8_t covetureen_survey(const uint8_t *book, size_t length, uint8_t parts[COVETUREEN_MOST_NODES],
                          uint8_t bridges[COVETUREEN_MOST_LINKS], size_t *place);

/*
 * The query by duct: all links that share the duct of a link, rising, with that link itself, zeros past them, and how many they are.
 * A link without a duct shares with itself only. Reading's refusals, then 12 with the link as its place.
 */
uint8_t covetureen_ducts(const uint8_t *book, size_t length, uint16_t link, uint16_t links[COVETUREEN_MOST_LINKS], size_t *count,
                         size_t *place);

/*
 * The collection route from a root: its nodes, the root first and last, zeros past them, how many entries it has, 2 * nodes - 1, and
 * for each link whether it is one of the route's tree, which none past the last link is. Reading's refusals, then 6 with place 0 where
 * the root is no node, and 20 with the lowest node that node 0 does not reach.
 */
uint8_t covetureen_collect(const uint8_t *book, size_t length, uint8_t root, uint8_t route[COVETUREEN_MOST_ENTRIES],
                           bool tree[COVETUREEN_MOST_LINKS], size_t *count, size_t *place);

#ifdef __cplusplus
}
#endif

#endif
