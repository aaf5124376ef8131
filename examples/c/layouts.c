/* The same lines as components.c, printed from what a runtime's client would get: layouts mono|dotnet < LISTS. An object is a byte whose place is its node. */
#include "cycle_check.h"
#include "dotnet.h"
#include "graph_file.h"
#include "mono.h"
#include <string.h>

static int print_mono(const struct graph *g, const struct result *r, char *heap) {
    MonoObject **objects = room(g->nodes, sizeof *objects);
    MonoGCBridgeSCC **sccs = room(r->counts.comps, sizeof *sccs);
    MonoGCBridgeXRef *refs = room(r->counts.xrefs, sizeof *refs);
    for (uint32_t x = 0; x < g->nodes; x++) objects[x] = (MonoObject *)(heap + x);
    if (!mono_fill(objects, r->starts, r->members, r->xrefs, &r->counts, sccs, refs)) return 1;
    for (uint32_t c = 0; c < r->counts.comps; c++) {
        fputs("scc", stdout);
        for (int k = 0; k < sccs[c]->num_objs; k++) printf(" %d", (int)((char *)sccs[c]->objs[k] - heap));
        putchar('\n');
        free(sccs[c]);
    }
    for (uint32_t i = 0; i < r->counts.xrefs; i++) printf("xref %d %d\n", refs[i].src_scc_index, refs[i].dst_scc_index);
    free(objects);
    free(sccs);
    free(refs);
    return 0;
}

/* What a client that is handed args does with the check: all peers are kept, which fits; then all but one of a component of several, which is torn. */
static int judge_dotnet(const MarkCrossReferencesArgs *args) {
    size_t count = 0;
    for (size_t c = 0; c < args->ComponentCount; c++) count += args->Components[c].Count;
    uint32_t *starts = room(args->ComponentCount, sizeof *starts), *members = room(count, sizeof *members);
    struct pass_pair *xrefs = room(args->CrossReferenceCount, sizeof *xrefs), finding = {0, 0};
    uint8_t *kept = room(count, 1);
    int failed = dotnet_report(args, starts, members, xrefs) != (long long)count;
    memset(kept, 1, count);
    if (cycle_check_kept(starts, args->ComponentCount, members, count, xrefs, args->CrossReferenceCount, kept, count, &finding) != CYCLE_OBEYS) failed = 1;
    for (size_t c = 0; c < args->ComponentCount; c++) {
        if (args->Components[c].Count < 2) continue;
        kept[starts[c]] = 0;
        uint32_t status = cycle_check_kept(starts, args->ComponentCount, members, count, xrefs, args->CrossReferenceCount, kept, count, &finding);
        if (status != CYCLE_TORN || finding.to != starts[c]) failed = 1;
        kept[starts[c]] = 1;
    }
    free(starts);
    free(members);
    free(xrefs);
    free(kept);
    return failed;
}

static int print_dotnet(const struct graph *g, const struct result *r, char *heap) {
    void **context = room(g->nodes, sizeof *context);
    for (uint32_t x = 0; x < g->nodes; x++) context[x] = heap + x;
    MarkCrossReferencesArgs args;
    if (!dotnet_fill(context, r->starts, r->members, r->xrefs, &r->counts, &args)) return 1;
    for (size_t c = 0; c < args.ComponentCount; c++) {
        fputs("scc", stdout);
        for (size_t k = 0; k < args.Components[c].Count; k++) printf(" %d", (int)((char *)args.Components[c].Contexts[k] - heap));
        putchar('\n');
    }
    for (size_t i = 0; i < args.CrossReferenceCount; i++)
        printf("xref %zu %zu\n", args.CrossReferences[i].SourceGroupIndex, args.CrossReferences[i].DestinationGroupIndex);
    int failed = judge_dotnet(&args);
    dotnet_release(&args);
    free(context);
    return failed;
}

int main(int argc, char **argv) {
    struct graph g = {0};
    struct result r = {0};
    int failed = argc != 2;
    for (int graphs = 0; !failed && read_graph(&g); graphs++) {
        if (find(&g, 0, PASS_HEAVY_AS_COMPONENTS, &r) != PASS_DONE) return 3;
        if (graphs) putchar('\n');
        char *heap = room(g.nodes, 1);
        failed = strcmp(argv[1], "mono") ? print_dotnet(&g, &r, heap) : print_mono(&g, &r, heap);
        free(heap);
        let_go(&g, &r);
    }
    return failed;
}
