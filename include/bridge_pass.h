/* The exact component pass of a garbage collector bridge, for C.
 *
 * A call reads a graph of objects that lies in the caller's arrays, and writes its strongly connected components of bridge objects and the
 * cross-references between them into others. docs/C-LIBRARY.md tells how to build and link the library, and what is promised.
 *
 * What a caller keeps, for each call:
 *
 * - A pointer is followed by the number of elements behind it (not bytes). It isn't null, also where that number is 0, is aligned for its element
 *   type, and points to so many elements, all of one allocated object. All memory that is read is initialised; what is only written need not be.
 * - An array that is written (starts, members, xrefs, counts) overlaps no other array of the call. Arrays that are only read may overlap each other.
 * - Until the call returns nobody else writes to any of its arrays, and nobody else reads those that it writes.
 *
 * What it gets: the call reads and writes nothing but these arrays and memory of its own, which it takes and gives back by malloc, realloc and free.
 * It keeps no pointer and no state. So calls on arrays of their own may run on several threads at once. It takes no lock, starts no thread, calls
 * nothing back, sets no errno of its own, and its use of the stack doesn't grow with the graph. It isn't for a signal handler, since malloc isn't. */
#ifndef BRIDGE_PASS_H
#define BRIDGE_PASS_H

#include <stddef.h>
#include <stdint.h>

#ifdef __cplusplus
extern "C" {
#endif

/* What a call answers. Unless it is PASS_DONE the arrays of the result are as they were. */
enum {
    PASS_DONE = 0,      /* the result is written, and counts is */
    PASS_NO_MEMORY = 1, /* malloc answered null */
    PASS_NO_GRAPH = 2,  /* the arrays of the graph aren't one: an edge names no node, or rows aren't in order */
    PASS_NO_ROOM = 3,   /* starts, members or xrefs has too few elements; counts tells how many each needs */
    PASS_TOO_MANY = 4   /* there are more than 4294967294 nodes or 4294967295 edges, or there is too much in the result or of what the search
                           works with to be numbered in 32 bits */
};

/* An edge from a node to a node, or a cross-reference from a component to a component: both by index, from 0. */
struct pass_pair {
    uint32_t from, to;
};

/* How many components there are, with the heavy ones; how many of these are heavy; how many members all have together; and how many
 * cross-references there are. It is written where the answer is PASS_DONE or PASS_NO_ROOM. */
struct pass_counts {
    uint32_t comps, heavy, members, xrefs;
};

/* How heavy classes are reported: as components without members, or not, with all pairs of components that a path through them joins in their place. */
enum { PASS_HEAVY_AS_COMPONENTS = 0, PASS_HEAVY_AS_PAIRS = 1 };

/* The graph in rows. Node x is a bridge object where kinds[x] isn't 0. It leads to the nodes targets[row_starts[x]] up to targets[row_starts[x + 1] - 1],
 * the last one to those up to the end of targets. row_starts_count is the number of nodes, and the starts rise; one may be the same as the next.
 * Edges may come again, and lead to the node itself.
 *
 * The result: component c has the members members[starts[c]] up to members[starts[c + 1] - 1], the last one those up to members[counts->members - 1]. Members
 * are indexes of bridge objects and rise; components stand in the order of their first members. Two bridge objects are in one component exactly where
 * each reaches the other. The last counts->heavy components are heavy classes, and have no members (see docs/C-LIBRARY.md). There is a cross-reference
 * from one component to another exactly where a path leads from the first to the second that passes no further component; they rise by from, then by to.
 * With PASS_HEAVY_AS_PAIRS (or any number but 0) there are components of bridge objects alone.
 *
 * As many elements as there are nodes are always enough for starts, and as many as there are bridge objects for members. For xrefs there is no such
 * bound that is small: try with some, and on PASS_NO_ROOM again with counts->xrefs. */
uint32_t pass_rows(
    const uint8_t *kinds, size_t nodes,
    const uint32_t *row_starts, size_t row_starts_count,
    const uint32_t *targets, size_t targets_count,
    uint32_t pairs_for_heavy,
    uint32_t *starts, size_t starts_room,
    uint32_t *members, size_t members_room,
    struct pass_pair *xrefs, size_t xrefs_room,
    struct pass_counts *counts);

/* The same, of a graph whose edges are pairs of nodes in any order. It takes somewhat longer, and more memory. */
uint32_t pass_pairs(
    const uint8_t *kinds, size_t nodes,
    const struct pass_pair *edges, size_t edges_count,
    uint32_t pairs_for_heavy,
    uint32_t *starts, size_t starts_room,
    uint32_t *members, size_t members_room,
    struct pass_pair *xrefs, size_t xrefs_room,
    struct pass_counts *counts);

/* What a client does with a report: the references between peers that stand for it, and what was kept. Of the further answers pass_mirror has PASS_NO_REPORT, and pass_resolve
 * PASS_TORN. */
enum {
    PASS_NO_REPORT = 5, /* starts don't rise from 0 to the end, a member isn't below objects, a cross-reference names no component, or one without members isn't last */
    PASS_TORN = 8       /* what was kept isn't closed: torn->from was, torn->to wasn't, both are bridge objects, and the first reaches the second */
};

/* How many edges a mirror has, and how many temporaries it leads through. It is written where the answer is PASS_DONE or PASS_NO_ROOM. */
struct mirror_counts {
    size_t edges;
    uint32_t temporaries;
};

/* The mirror of a report, in the form of the results above, with heavy classes as components or as pairs: each component's members on a circle, from each to the next and from the last
 * to the first (one alone has none), and then for each cross-reference an edge from the first member of its source to the first member of its destination. A component without
 * members has a temporary in place of that: the temporaries are the numbers from objects on, in the order of these components. The client makes an object for each, and drops it
 * once it has marked.
 *
 * As many elements as there are members and cross-references are always enough for edges. PASS_TOO_MANY: there are more than 4294967295 objects and components together. */
uint32_t pass_mirror(
    size_t objects,
    const uint32_t *starts, size_t starts_count,
    const uint32_t *members, size_t members_count,
    const struct pass_pair *xrefs, size_t xrefs_count,
    struct pass_pair *edges, size_t edges_room,
    struct mirror_counts *counts);

/* What a cycle has to take as dead, of a graph in rows: dead[x] is 1 for each node that no bridge object that was kept reaches, and 0 for each that one reaches; kept[x] isn't 0 where
 * x's peer is left, which is read for bridge objects. Either has an element for each node, or the answer is PASS_NO_GRAPH. Nothing but *torn is written unless it is PASS_DONE,
 * and *torn only where it is PASS_TORN. */
uint32_t pass_resolve(
    const uint8_t *kinds, size_t nodes,
    const uint32_t *row_starts, size_t row_starts_count,
    const uint32_t *targets, size_t targets_count,
    const uint8_t *kept, size_t kept_count,
    uint8_t *dead, size_t dead_count,
    struct pass_pair *torn);

#ifdef __cplusplus
}
#endif
#endif
