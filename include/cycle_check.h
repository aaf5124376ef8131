/* Was one cycle of a garbage collector bridge right? For a runtime's debug build and its tests, and for a client's; beside bridge_pass.h, in the same library.
 *
 * A call takes what a runtime, or its client, had anyway, and says whether it fits together; else it names the first thing that doesn't, with the two objects that show it.
 * docs/C-LIBRARY.md tells where in a runtime each call belongs. What a caller keeps, and what a call does with memory, threads and pointers, is as in bridge_pass.h.
 * Nothing is written but *finding. */
#ifndef CYCLE_CHECK_H
#define CYCLE_CHECK_H

#include "bridge_pass.h"

#ifdef __cplusplus
extern "C" {
#endif

/* What a call answers: the first that holds, in the order of the numbers, but that CYCLE_NO_MEMORY may come in place of any. Each call says which it has. *finding is written
 * where the answer is greater than 4. */
enum {
    CYCLE_OBEYS = 0,     /* none of what stands below holds */
    CYCLE_NO_MEMORY = 1, /* malloc answered null: nothing is said */
    CYCLE_NO_GRAPH = 2,  /* the rows aren't a graph, as in pass_rows, or kept or dead hasn't an element for each node */
    CYCLE_NO_REPORT = 3, /* starts don't rise from 0 to the end, a member is no object, or a cross-reference names no component */
    CYCLE_TOO_MANY = 4,  /* there are more than 4294967294 nodes, or components, or more than 4294967295 edges, or cross-references */
    CYCLE_TORN = 8,      /* from was kept and to wasn't, both are bridge objects, and from reaches to: the client's collection took what the mirror should have held */
    CYCLE_EARLY = 9,     /* to was taken as dead, and from, a bridge object that was kept, reaches it */
    CYCLE_LEFT = 10      /* to wasn't taken as dead, and no bridge object that was kept reaches it; from is the same */
};

/* The report alone, for a client, who is handed components and cross-references and has no graph: whether what its own collection left fits them. Component c has the
 * members members[starts[c]] up to members[starts[c + 1] - 1], the last one those up to the end; perhaps none, anywhere. Members are numbers below kept_count, as the places
 * of the objects that are handed over, counted through all components; kept[x] isn't 0 where x's peer is left.
 *
 * Answers CYCLE_OBEYS, NO_MEMORY, NO_REPORT, TOO_MANY, or TORN: from was kept, to wasn't, and cross-references lead, by none or more steps, from a component with from to
 * one with to. So all of a component are kept, or none. */
uint32_t cycle_check_kept(
    const uint32_t *starts, size_t starts_count,
    const uint32_t *members, size_t members_count,
    const struct pass_pair *xrefs, size_t xrefs_count,
    const uint8_t *kept, size_t kept_count,
    struct pass_pair *finding);

/* The outcome, by the graph alone, in rows as for pass_rows: kept[x] isn't 0 where x's peer is left (read for bridge objects), dead[x] isn't 0 where the runtime takes x as
 * dead. A runtime that frees whole components gives dead for bridge objects alone, and asks for CYCLE_BRIDGES: then dead is read for these alone.
 *
 * Answers CYCLE_OBEYS, NO_MEMORY, NO_GRAPH, TOO_MANY, TORN, EARLY or LEFT. */
enum { CYCLE_ALL = 0, CYCLE_BRIDGES = 1 };
uint32_t cycle_check_outcome(
    const uint8_t *kinds, size_t nodes,
    const uint32_t *row_starts, size_t row_starts_count,
    const uint32_t *targets, size_t targets_count,
    const uint8_t *kept, size_t kept_count,
    const uint8_t *dead, size_t dead_count,
    uint32_t which, struct pass_pair *finding);

#ifdef __cplusplus
}
#endif
#endif
