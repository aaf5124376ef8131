/* One cycle of a bridge as a runtime would run it: the pass, the client's mirror, what the client's collection leaves, and what is dead. Then the checks of a debug build, which say that it
 * was right, and of the same cycle with three faults planted. It prints nothing, and ends with 0, where each answer is the right one.
 *
 *        0 <-> 1 --> (2) --> 3        4          0, 1, 3 and 4 have peers, 2 has none
 *
 * The client's roots hold the peer of 0, so those of 1 and 3 stay, and that of 4 goes. */
#include "cycle_check.h"
#include <stdio.h>
#include <string.h>

enum { NODES = 5, EDGES = 4, XREFS = 4, MEMBERS = 4 };
static const uint8_t kinds[NODES] = {1, 1, 0, 1, 1};
static const uint32_t row_starts[NODES] = {0, 1, 3, 4, 4}, targets[EDGES] = {1, 0, 2, 3};

/* what a client's own collection keeps: peer 0 by a root, and what mirror edges lead to from a kept one. (A real one marks; this one goes over the edges until nothing is new.) */
static void collect(const struct pass_pair *edges, size_t count, uint8_t *kept) {
    kept[0] = 1;
    for (size_t round = 0; round <= count; round++)
        for (size_t i = 0; i < count; i++)
            if (kept[edges[i].from]) kept[edges[i].to] = 1;
}

static uint32_t outcome(const uint8_t *kept, const uint8_t *dead, struct pass_pair *finding) {
    return cycle_check_outcome(kinds, NODES, row_starts, NODES, targets, EDGES, kept, NODES, dead, NODES, CYCLE_ALL, finding);
}

static int wrong(const char *what, uint32_t status, struct pass_pair finding) {
    fprintf(stderr, "%s: status %u, from %u to %u\n", what, (unsigned)status, (unsigned)finding.from, (unsigned)finding.to);
    return 1;
}

int main(void) {
    uint32_t starts[NODES], members[MEMBERS];
    struct pass_pair xrefs[XREFS], edges[MEMBERS + XREFS], finding = {0, 0};
    struct pass_counts counts;
    struct mirror_counts mirror;
    uint8_t kept[2 * NODES] = {0}, dead[NODES];

    /* the runtime: components and cross-references of the dead objects */
    if (pass_rows(kinds, NODES, row_starts, NODES, targets, EDGES, PASS_HEAVY_AS_COMPONENTS, starts, NODES, members, MEMBERS, xrefs, XREFS, &counts) != PASS_DONE) return 1;
    /* its client: references between peers for them, and a collection */
    if (pass_mirror(NODES, starts, counts.comps, members, counts.members, xrefs, counts.xrefs, edges, MEMBERS + XREFS, &mirror) != PASS_DONE) return 1;
    collect(edges, mirror.edges, kept);
    /* the client's check: what it kept fits what it was told */
    uint32_t status = cycle_check_kept(starts, counts.comps, members, counts.members, xrefs, counts.xrefs, kept, NODES, &finding);
    if (status != CYCLE_OBEYS) return wrong("kept", status, finding);
    /* the runtime: what is dead, and its own check */
    status = pass_resolve(kinds, NODES, row_starts, NODES, targets, EDGES, kept, NODES, dead, NODES, &finding);
    if (status != PASS_DONE || memcmp(dead, (const uint8_t[]){0, 0, 0, 0, 1}, NODES)) return wrong("resolve", status, finding);
    status = outcome(kept, dead, &finding);
    if (status != CYCLE_OBEYS) return wrong("outcome", status, finding);

    /* a mirror without its last reference: the peer of 3 goes, though that of 1, which stays, leads to it */
    memset(kept, 0, sizeof kept);
    collect(edges, mirror.edges - 1, kept);
    status = cycle_check_kept(starts, counts.comps, members, counts.members, xrefs, counts.xrefs, kept, NODES, &finding);
    if (status != CYCLE_TORN || !kept[finding.from] || finding.to != 3) return wrong("a torn mirror", status, finding);
    kept[3] = 1;
    /* an object that is taken as dead too early, and one that is left */
    dead[2] = 1;
    status = outcome(kept, dead, &finding);
    if (status != CYCLE_EARLY || finding.to != 2) return wrong("taken early", status, finding);
    dead[2] = dead[4] = 0;
    status = outcome(kept, dead, &finding);
    if (status != CYCLE_LEFT || finding.to != 4) return wrong("left", status, finding);
    return 0;
}
