/* Faults of the cover and of its update. */
#include "faults.h"

REAL(cover);
REAL(update);

enum { EDGE = 8, LONGEST = 64, MOST_GROUPS = 131072 };

struct graph {
    const uint8_t *edges;
    size_t count, groups, metas;
};

static uint32_t group_of(const struct graph *graph, size_t i)
{
    return word(graph->edges + EDGE * i);
}

static uint32_t meta_of(const struct graph *graph, size_t i)
{
    return word(graph->edges + EDGE * i + 4);
}

/* How often an edge stands among the first ones. */
static size_t times(const struct graph *graph, size_t first, const uint8_t *edge)
{
    size_t times = 0;
    for (size_t i = 0; i < first; i++)
        times += memcmp(graph->edges + EDGE * i, edge, EDGE) == 0;
    return times;
}

static void *zeros(size_t count, size_t size)
{
    void *zeros = calloc(count + 1, size);
    if (!zeros)
        abort();
    return zeros;
}

/* The edges of each group and of each meta-peptide that is not covered. */
static size_t count_edges(const struct graph *graph, const uint8_t *covered, uint32_t *of_group, uint32_t *of_meta)
{
    size_t all = 0;
    memset(of_group, 0, 4 * graph->groups);
    memset(of_meta, 0, 4 * graph->metas);
    for (size_t i = 0; i < graph->count; i++) {
        if (covered[meta_of(graph, i)])
            continue;
        if (planted("cover: a repeated edge counts once") && times(graph, i, graph->edges + EDGE * i))
            continue;
        of_group[group_of(graph, i)]++;
        of_meta[meta_of(graph, i)]++;
        all++;
    }
    return all;
}

static void cover_of_marked(const struct graph *graph, const uint8_t *marks, uint8_t *covered)
{
    for (size_t i = 0; i < graph->count; i++)
        covered[meta_of(graph, i)] |= marks[group_of(graph, i)];
}

static int is_greater(uint32_t remaining, uint32_t original, uint32_t than_remaining, uint32_t than_original)
{
    if (planted("cover: remaining edges are not asked") && remaining > 0 && than_remaining > 0)
        remaining = than_remaining;
    if (planted("cover: original edges are not asked"))
        original = than_original;
    if (remaining != than_remaining)
        return remaining > than_remaining;
    if (original != than_original)
        return original > than_original;
    return !planted("cover: ties go to the lowest number");
}

static size_t greatest(const uint32_t *remaining, const uint32_t *original, size_t groups)
{
    size_t best = 0;
    for (size_t i = 1; i < groups; i++)
        if (is_greater(remaining[i], original[i], remaining[best], original[best]))
            best = i;
    return best;
}

/* Covers anew, as the fault has it. */
static void cover_badly(const struct graph *graph, uint8_t *marks)
{
    uint32_t *original = zeros(graph->groups, 4), *remaining = zeros(graph->groups, 4), *of_meta = zeros(graph->metas, 4);
    uint8_t *covered = zeros(graph->metas, 1);
    memset(marks, planted("cover: all groups are marked"), graph->groups);
    count_edges(graph, covered, original, of_meta);
    for (size_t i = 0; i < graph->count && !planted("cover: single edges are not asked"); i++)
        marks[group_of(graph, i)] |= of_meta[meta_of(graph, i)] == 1;
    for (int choices = 0;; choices++) {
        cover_of_marked(graph, marks, covered);
        if (count_edges(graph, covered, remaining, of_meta) == 0 || (planted("cover: the first choice is the last") && choices))
            break;
        marks[greatest(remaining, original, graph->groups)] = 1;
    }
    free(original), free(remaining), free(of_meta), free(covered);
}

static size_t last_bad_edge(const struct graph *graph)
{
    size_t last = 0;
    for (size_t i = 0; i < graph->count; i++)
        if (group_of(graph, i) >= graph->groups || meta_of(graph, i) >= graph->metas)
            last = i;
    return last;
}

uint32_t sendumaal_cover(const uint8_t *edges, size_t edges_len, uint32_t groups, uint32_t metas,
                         uint32_t *work, size_t work_len, uint8_t *marks, size_t marks_len,
                         uint32_t *count, size_t *place)
{
    struct graph graph = {edges, edges_len / EDGE, groups, metas};
    uint32_t *work_before = kept_bytes(work, 4 * work_len);
    uint8_t *marks_before = kept_bytes(marks, marks_len);
    uint32_t number = real_cover(edges, edges_len, groups, metas, work, work_len, marks, marks_len, count, place);
    if (number == 0) {
        if (some_planted() && graph.count <= LONGEST && groups > 0)
            cover_badly(&graph, marks);
        if (planted("cover: a byte past the marks is written"))
            marks[groups] ^= 1;
        if (planted("cover: the work memory to spare is not cleared"))
            put_back_end(work, work_before, work_len);
    }
    if (planted("cover: 11 leaves the marks as they were") && number == 11)
        copy_bytes(marks, marks_before, marks_len);
    if (planted("cover: 9 is at the last bad edge") && number == 9)
        *place = last_bad_edge(&graph);
    if (planted("cover: a meta-peptide out of range is taken") && number == 9 && group_of(&graph, *place) < groups)
        *place = 0, *count = groups, number = 0;
    if (planted("cover: 9 clears the work memory") && number == 9)
        copy_bytes(work, memset(work_before, 0, 4 * work_len), 4 * work_len);
    if (planted("cover: 10 comes before 8") && number == 8 && work_len < 4 * groups)
        number = 10;
    if (planted("cover: counts are cut to 31 bits") && number == 1 && (groups & 0x7fffffff) <= MOST_GROUPS && groups >> 31)
        number = *count = 0;
    free(work_before);
    free(marks_before);
    return number;
}

/* ---- the update ---- */

/* The marks of the real cover. */
static uint8_t *real_marks(const struct graph *graph)
{
    size_t words = 4 * graph->groups + 4 * graph->metas + 6 * graph->count, place;
    uint32_t count, *work = zeros(words, 4);
    uint8_t *marks = zeros(graph->groups, 1);
    real_cover(graph->edges, EDGE * graph->count, graph->groups, graph->metas, work, words, marks, graph->groups, &count,
               &place);
    free(work);
    return marks;
}

static int differs(const struct graph *old, const struct graph *new, const uint8_t *edge)
{
    size_t before = times(old, old->count, edge), after = times(new, new->count, edge);
    if (planted("update: how often an edge stands is not asked"))
        return !before != !after;
    if (planted("update: an edge that stands less often touches nothing"))
        return before < after;
    return before != after;
}

/* Touches the ends of those edges of one of two graphs that differ. */
static void touch_differing(const struct graph *old, const struct graph *new, const struct graph *of, uint8_t *groups,
                            uint8_t *metas)
{
    for (size_t i = 0; i < of->count; i++)
        if (differs(old, new, of->edges + EDGE * i))
            groups[group_of(of, i)] = metas[meta_of(of, i)] = 1;
}

/* One step from what is touched along the edges of a graph: whether more is touched then. */
static int reach(const struct graph *graph, uint8_t *groups, uint8_t *metas)
{
    int more = 0;
    for (size_t i = 0; i < graph->count; i++) {
        uint8_t *group = groups + group_of(graph, i), *meta = metas + meta_of(graph, i);
        more |= *group != *meta;
        *group = *meta = *group | *meta;
    }
    return more;
}

/* 1 for each group that is touched, as the fault has it. */
static uint8_t *touched_badly(const struct graph *old, const struct graph *new)
{
    uint8_t *groups = zeros(new->groups, 1), *metas = zeros(new->metas, 1);
    int new_alone = planted("update: touched parts are limited to the new list");
    touch_differing(old, new, new, groups, metas);
    if (!new_alone)
        touch_differing(old, new, old, groups, metas);
    if (!planted("update: only the groups of edges that differ are touched"))
        while (reach(new, groups, metas) | (!new_alone && reach(old, groups, metas)))
            ;
    if (planted("update: everything is covered anew"))
        memset(groups, 1, new->groups);
    free(metas);
    return groups;
}

/* Updates anew, as the fault has it. */
static void update_badly(const struct graph *old, const struct graph *new, const uint8_t *given, uint8_t *marks)
{
    uint8_t *touched = touched_badly(old, new);
    uint8_t *cover = real_marks(planted("update: the cover is that of the old list") ? old : new);
    for (size_t i = 0; i < new->groups; i++)
        marks[i] = touched[i] && !planted("update: the given marks are handed back") ? cover[i] : given[i];
    free(touched);
    free(cover);
}

static int has_bad_edge(const struct graph *graph, size_t *place)
{
    for (*place = 0; *place < graph->count; *place += 1)
        if (group_of(graph, *place) >= graph->groups || meta_of(graph, *place) >= graph->metas)
            return 1;
    return 0;
}

uint32_t sendumaal_update(const uint8_t *old_edges, size_t old_edges_len,
                          const uint8_t *new_edges, size_t new_edges_len, uint32_t groups, uint32_t metas,
                          const uint8_t *given, size_t given_len, uint32_t *work, size_t work_len,
                          uint8_t *marks, size_t marks_len, uint32_t *count, size_t *place)
{
    struct graph old = {old_edges, old_edges_len / EDGE, groups, metas};
    struct graph new = {new_edges, new_edges_len / EDGE, groups, metas};
    size_t words = 4 * (size_t)groups + 4 * (size_t)metas + 6 * new.count, first;
    uint32_t *own_work = NULL, *lent = work;
    if (planted("update: the work memory counts the new list alone") && groups <= MOST_GROUPS && work_len >= words &&
        work_len < words + 6 * old.count) {
        work_len = words + 6 * old.count;
        work = own_work = zeros(work_len, 4);
    }
    uint32_t number = real_update(old_edges, old_edges_len, new_edges, new_edges_len, groups, metas, given, given_len, work,
                                  work_len, marks, marks_len, count, place);
    if (own_work && (number == 0 || number == 11))
        memset(lent, 0, 4 * words);
    free(own_work);
    if (number == 0 && some_planted() && old.count + new.count <= 2 * LONGEST)
        update_badly(&old, &new, given, marks);
    if (planted("update: the work memory is left written") && number == 0 && work_len > 0)
        lent[0] = 1;
    if (planted("update: a byte past the marks is written") && number == 0)
        marks[groups] ^= 1;
    if (number != 9)
        return number;
    if (planted("update: the new list is tested before the old one") && has_bad_edge(&new, &first))
        *place = first;
    if (planted("update: given marks are not tested") && !has_bad_edge(&old, &first) && !has_bad_edge(&new, &first))
        return *place = 0, *count = groups, 0;
    return number;
}
