/* Prints the components and cross-references of edge lists, as `contract_tool dump` does, with an empty line between two:
 *
 *     components rows|pairs [expanded] < LISTS
 *
 * With the last word there are pairs in place of heavy classes. */
#include "graph_file.h"
#include <string.h>

static void print(const struct result *r) {
    for (uint32_t c = 0; c < r->counts.comps; c++) {
        uint32_t end = c + 1 < r->counts.comps ? r->starts[c + 1] : r->counts.members;
        fputs("scc", stdout);
        for (uint32_t k = r->starts[c]; k < end; k++) printf(" %u", (unsigned)r->members[k]);
        putchar('\n');
    }
    for (uint32_t i = 0; i < r->counts.xrefs; i++) printf("xref %u %u\n", (unsigned)r->xrefs[i].from, (unsigned)r->xrefs[i].to);
}

int main(int argc, char **argv) {
    struct graph g = {0};
    struct result r = {0};
    for (int graphs = 0; read_graph(&g); graphs++) {
        uint32_t status = find(&g, argc > 1 && !strcmp(argv[1], "pairs"), argc > 2 ? PASS_HEAVY_AS_PAIRS : PASS_HEAVY_AS_COMPONENTS, &r);
        if (status != PASS_DONE) {
            fprintf(stderr, "status %u\n", (unsigned)status);
            return 3;
        }
        if (graphs) putchar('\n');
        print(&r);
        let_go(&g, &r);
    }
    return 0;
}
