/* What the bridge of Mono's SGen hands to its client (mono/metadata/sgen-bridge.h), filled from a result of the pass. The structs are written here as they
 * stand there; a runtime includes its own header instead. Components without objects come as its Tarjan bridge hands them over: with num_objs 0. */
#ifndef MONO_LAYOUT_H
#define MONO_LAYOUT_H
#include "bridge_pass.h"
#include <stdlib.h>

typedef struct _MonoObject MonoObject;
typedef int mono_bool;

typedef struct {
    mono_bool is_alive;
    int num_objs;
    MonoObject *objs[];
} MonoGCBridgeSCC;

typedef struct {
    int src_scc_index, dst_scc_index;
} MonoGCBridgeXRef;

/* A component, as memory of its own; objects[x] is the object that is node x. */
static MonoGCBridgeSCC *mono_scc(MonoObject *const *objects, const uint32_t *members, uint32_t count) {
    MonoGCBridgeSCC *scc = malloc(sizeof *scc + count * sizeof scc->objs[0]);
    if (!scc) return NULL;
    scc->is_alive = 0;
    scc->num_objs = (int)count;
    for (uint32_t k = 0; k < count; k++) scc->objs[k] = objects[members[k]];
    return scc;
}

/* All components and cross-references, of at most 2147483647 each, into arrays of counts->comps and counts->xrefs. Each component is a block of its own, which the runtime frees with free
 * once its client is done. 0 where there is no memory: then what was made is freed. */
static int mono_fill(MonoObject *const *objects, const uint32_t *starts, const uint32_t *members, const struct pass_pair *xrefs,
                     const struct pass_counts *counts, MonoGCBridgeSCC **sccs, MonoGCBridgeXRef *refs) {
    for (uint32_t c = 0; c < counts->comps; c++) {
        uint32_t end = c + 1 < counts->comps ? starts[c + 1] : counts->members;
        if (!(sccs[c] = mono_scc(objects, members + starts[c], end - starts[c]))) {
            while (c-- > 0) free(sccs[c]);
            return 0;
        }
    }
    for (uint32_t i = 0; i < counts->xrefs; i++) refs[i] = (MonoGCBridgeXRef){(int)xrefs[i].from, (int)xrefs[i].to};
    return 1;
}
#endif
