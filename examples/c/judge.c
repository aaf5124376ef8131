/* Judges cycles that are written as numbers, and computes parts of them, with an answer a line:
 *
 *     judge < CASES
 *
 * A case is a word and numbers: first lengths, then the arrays in the order of the call (a pair as two numbers).
 *
 *     kept OBJECTS COMPONENTS MEMBERS XREFS    starts members xrefs kept        prints STATUS, and the finding where there is one
 *     outcome NODES TARGETS WHICH              kinds row_starts targets kept dead          the same
 *     mirror OBJECTS COMPONENTS MEMBERS XREFS  starts members xrefs             prints STATUS, and where it is 0 TEMPORARIES and the edges
 *     resolve NODES TARGETS                    kinds row_starts targets kept    prints STATUS, and where it is 0 dead, where it is 8 the pair */
#include "cycle_check.h"
#include <stdio.h>
#include <stdlib.h>
#include <string.h>

static void *room(size_t count, size_t size) {
    void *p = malloc((count ? count : 1) * size);
    if (!p) exit(1);
    return p;
}

static size_t number(void) {
    size_t n;
    if (scanf("%zu", &n) != 1) exit(2);
    return n;
}

static uint32_t *numbers(size_t count) {
    uint32_t *a = room(count, sizeof *a);
    for (size_t i = 0; i < count; i++) a[i] = (uint32_t)number();
    return a;
}

static uint8_t *flags(size_t count) {
    uint8_t *a = room(count, 1);
    for (size_t i = 0; i < count; i++) a[i] = (uint8_t)number();
    return a;
}

static struct pass_pair *pairs(size_t count) {
    struct pass_pair *a = room(count, sizeof *a);
    for (size_t i = 0; i < count; i++) {
        a[i].from = (uint32_t)number();
        a[i].to = (uint32_t)number();
    }
    return a;
}

static void tell(uint32_t status, struct pass_pair finding) {
    printf("%u", (unsigned)status);
    if (status > 5) printf(" %u %u", (unsigned)finding.from, (unsigned)finding.to);
}

struct report {
    size_t objects, comps, count, xrefs_count;
    uint32_t *starts, *members;
    struct pass_pair *xrefs;
};

static struct report report(void) {
    struct report r = {0};
    r.objects = number(), r.comps = number(), r.count = number(), r.xrefs_count = number();
    r.starts = numbers(r.comps);
    r.members = numbers(r.count);
    r.xrefs = pairs(r.xrefs_count);
    return r;
}

static void let_go(struct report *r) {
    free(r->starts);
    free(r->members);
    free(r->xrefs);
}

static void judge_kept(void) {
    struct report r = report();
    uint8_t *kept = flags(r.objects);
    struct pass_pair finding = {0, 0};
    uint32_t status = cycle_check_kept(r.starts, r.comps, r.members, r.count, r.xrefs, r.xrefs_count, kept, r.objects, &finding);
    tell(status, finding);
    free(kept);
    let_go(&r);
}

static void make_mirror(void) {
    struct report r = report();
    size_t most = r.count + r.xrefs_count;
    struct pass_pair *edges = room(most, sizeof *edges);
    struct mirror_counts counts = {0, 0};
    uint32_t status = pass_mirror(r.objects, r.starts, r.comps, r.members, r.count, r.xrefs, r.xrefs_count, edges, most, &counts);
    printf("%u", (unsigned)status);
    if (status == PASS_DONE) {
        printf(" %u", (unsigned)counts.temporaries);
        for (uint32_t i = 0; i < counts.edges; i++) printf(" %u %u", (unsigned)edges[i].from, (unsigned)edges[i].to);
    }
    free(edges);
    let_go(&r);
}

static void judge_outcome(int resolves) {
    size_t nodes = number(), count = number(), which = resolves ? 0 : number();
    uint8_t *kinds = flags(nodes);
    uint32_t *rows = numbers(nodes), *targets = numbers(count);
    uint8_t *kept = flags(nodes), *dead = resolves ? room(nodes, 1) : flags(nodes);
    struct pass_pair finding = {0, 0};
    if (resolves) {
        uint32_t status = pass_resolve(kinds, nodes, rows, nodes, targets, count, kept, nodes, dead, nodes, &finding);
        tell(status, finding);
        for (size_t x = 0; status == PASS_DONE && x < nodes; x++) printf(" %u", (unsigned)dead[x]);
    } else {
        tell(cycle_check_outcome(kinds, nodes, rows, nodes, targets, count, kept, nodes, dead, nodes, (uint32_t)which, &finding), finding);
    }
    free(kinds);
    free(rows);
    free(targets);
    free(kept);
    free(dead);
}

int main(void) {
    char word[16];
    while (scanf("%15s", word) == 1) {
        if (!strcmp(word, "kept")) judge_kept();
        else if (!strcmp(word, "mirror")) make_mirror();
        else if (!strcmp(word, "outcome")) judge_outcome(0);
        else if (!strcmp(word, "resolve")) judge_outcome(1);
        else return 2;
        putchar('\n');
    }
    return 0;
}
