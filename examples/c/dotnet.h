/* What .NET hands to the callback of JavaMarshal.Initialize, filled from a result of the pass, and read as a report for cycle_check_kept. The structs are written here as the runtime's
 * interop header has them; a runtime includes its own instead.
 *
 * Who frees: the contexts of each component are a block of their own, and so are Components and CrossReferences, since the runtime frees them so, one by one, once its client has
 * called FinishCrossReferenceProcessing. dotnet_release does the same with free; a runtime that frees by another allocator fills by that one. */
#ifndef DOTNET_LAYOUT_H
#define DOTNET_LAYOUT_H
#include "bridge_pass.h"
#include <stdlib.h>

typedef struct {
    size_t Count;
    void **Contexts;
} StronglyConnectedComponent;

typedef struct {
    size_t SourceGroupIndex, DestinationGroupIndex;
} ComponentCrossReference;

typedef struct {
    size_t ComponentCount;
    StronglyConnectedComponent *Components;
    size_t CrossReferenceCount;
    ComponentCrossReference *CrossReferences;
} MarkCrossReferencesArgs;

/* Frees all blocks that args leads to, and not args itself. */
static void dotnet_release(MarkCrossReferencesArgs *args) {
    for (size_t c = 0; c < args->ComponentCount; c++) free(args->Components[c].Contexts);
    free(args->Components);
    free(args->CrossReferences);
    *args = (MarkCrossReferencesArgs){0, NULL, 0, NULL};
}

/* zeros for so many elements, at least one, so that null says that there is no memory */
static void *dotnet_block(size_t count, size_t size) { return calloc(count ? count : 1, size); }

/* Fills args from a result; context[x] is that of the bridge object that is node x. 0 where there is no memory: then nothing is left to free. */
static int dotnet_fill(void *const *context, const uint32_t *starts, const uint32_t *members, const struct pass_pair *xrefs, const struct pass_counts *counts, MarkCrossReferencesArgs *args) {
    *args = (MarkCrossReferencesArgs){0, dotnet_block(counts->comps, sizeof *args->Components), counts->xrefs, dotnet_block(counts->xrefs, sizeof *args->CrossReferences)};
    int filled = args->Components && args->CrossReferences;
    for (uint32_t c = 0; filled && c < counts->comps; c++) {
        size_t count = (c + 1 < counts->comps ? starts[c + 1] : counts->members) - starts[c];
        void **contexts = dotnet_block(count, sizeof *contexts);
        if (!contexts) filled = 0;
        else args->Components[args->ComponentCount++] = (StronglyConnectedComponent){count, contexts};
        for (size_t k = 0; filled && k < count; k++) contexts[k] = context[members[starts[c] + k]];
    }
    for (uint32_t i = 0; filled && i < counts->xrefs; i++) args->CrossReferences[i] = (ComponentCrossReference){xrefs[i].from, xrefs[i].to};
    if (!filled) dotnet_release(args);
    return filled;
}

/* The other way, for a client: the arrays of a report for cycle_check_kept from the args that it is handed. Members are the places of the contexts, counted through all components from 0;
 * so kept[k] is whether the peer of the context at place k is left. The arrays have elements for ComponentCount, for all contexts, and for CrossReferenceCount. Answers how many contexts
 * there are, or -1 where something has more than 32 bits. */
static long long dotnet_report(const MarkCrossReferencesArgs *args, uint32_t *starts, uint32_t *members, struct pass_pair *xrefs) {
    size_t place = 0;
    for (size_t c = 0; c < args->ComponentCount; c++) {
        if (args->Components[c].Count > 4294967295u - place) return -1;
        starts[c] = (uint32_t)place;
        for (size_t k = 0; k < args->Components[c].Count; k++, place++) members[place] = (uint32_t)place;
    }
    for (size_t i = 0; i < args->CrossReferenceCount; i++) {
        ComponentCrossReference x = args->CrossReferences[i];
        if (x.SourceGroupIndex > 4294967295u || x.DestinationGroupIndex > 4294967295u) return -1;
        xrefs[i] = (struct pass_pair){(uint32_t)x.SourceGroupIndex, (uint32_t)x.DestinationGroupIndex};
    }
    return (long long)place;
}
#endif
