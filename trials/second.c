/* The second program of the trials: bounds, floors and ceilings straight from the equations of docs/RULES.md, and the
   walk of docs/SEARCH.md, on the sheets of docs/TRIALS.md. It has nothing in common with the library but these three
   pages. Each end of a walk is held against all orders of the flows; where they differ, the program stops with
   status 1. */
#include <stdbool.h>
#include <stdint.h>
#include <stdio.h>
#include <stdlib.h>
#include <string.h>

enum { MOST = 7, SIDE = 6, LINKS = SIDE * SIDE * 6, FIXED = 11, MIXED = 240, LAST = 360, NOTHING = -1 };
enum { IN, OUT, EAST, WEST, NORTH, SOUTH };

typedef struct {
    int64_t period, deadline, jitter, latency;
    int from_x, from_y, to_x, to_y;
} Flow;

typedef struct {
    int number, count;
    Flow flow[MOST + 1]; /* by number, from 1 */
    bool shares[MOST + 1][MOST + 1];
    int64_t reserve; /* or NOTHING */
    int pairs, first[2], later[2];
} Sheet;

/* The bounds of the three rules, which are floors and ceilings too, and the ceiling of rule J. */
typedef enum { D, J, L, CEILING_J, KINDS } Kind;

typedef struct {
    Kind letter; /* D, J or L */
    bool layered;
} Rule;

/* ---- routes */

static void mark(bool *route, int x, int y, int port) { route[(x * SIDE + y) * 6 + port] = true; }

static void walk(const Flow *f, bool *route) {
    int x = f->from_x, y = f->from_y;
    memset(route, 0, LINKS * sizeof *route);
    mark(route, x, y, IN);
    while (x < f->to_x) mark(route, x++, y, EAST);
    while (x > f->to_x) mark(route, x--, y, WEST);
    while (y < f->to_y) mark(route, x, y++, NORTH);
    while (y > f->to_y) mark(route, x, y--, SOUTH);
    mark(route, x, y, OUT);
}

static void find_sharing(Sheet *s) {
    static bool route[MOST + 1][LINKS];
    for (int f = 1; f <= s->count; f++) walk(&s->flow[f], route[f]);
    for (int f = 1; f <= s->count; f++)
        for (int g = 1; g <= s->count; g++) {
            s->shares[f][g] = false;
            for (int k = 0; k < LINKS; k++)
                if (route[f][k] && route[g][k]) s->shares[f][g] = true;
        }
}

/* ---- the equation, tried with every number up to the deadline */

static int64_t least(const Sheet *s, int f, const bool *counts, const int64_t *lateness) {
    for (int64_t r = 0; r <= s->flow[f].deadline; r++) {
        int64_t sum = s->flow[f].latency;
        for (int j = 1; j <= s->count; j++)
            if (counts[j]) {
                int64_t n = r + s->flow[j].jitter + lateness[j], t = s->flow[j].period;
                sum += (n / t + (n % t != 0)) * s->flow[j].latency;
            }
        if (sum == r) return r;
    }
    return NOTHING;
}

/* Whether one of the listed flows shares with j and not with f. */
static bool meets_only(const Sheet *s, int j, int f, const int *list, int length) {
    for (int i = 0; i < length; i++)
        if (list[i] != j && s->shares[list[i]][j] && !s->shares[list[i]][f]) return true;
    return false;
}

static int64_t rule_d(const Sheet *s, int f, const int *above, int length) {
    bool counts[MOST + 1] = {false};
    int64_t lateness[MOST + 1] = {0};
    for (int i = 0; i < length; i++) counts[above[i]] = s->shares[above[i]][f];
    return least(s, f, counts, lateness);
}

static int64_t rule_l(const Sheet *s, int f, const int *above, int length) {
    bool counts[MOST + 1] = {false};
    int64_t lateness[MOST + 1] = {0};
    for (int i = 0; i < length; i++) {
        int j = above[i];
        counts[j] = s->shares[j][f];
        for (int k = 0; k < length; k++)
            if (s->shares[above[k]][f] && s->shares[j][above[k]]) counts[j] = true;
    }
    return least(s, f, counts, lateness);
}

static int64_t told(Kind kind, const Sheet *s, int f, const int *list, int length);

static int64_t rule_j(const Sheet *s, int f, const int *above, int length) {
    bool counts[MOST + 1] = {false};
    int64_t lateness[MOST + 1] = {0};
    for (int i = 0; i < length; i++) {
        int j = above[i];
        int64_t r = told(J, s, j, above, i);
        if (r == NOTHING) return NOTHING;
        counts[j] = s->shares[j][f];
        if (meets_only(s, j, f, above, i)) lateness[j] = r - s->flow[j].latency;
    }
    return least(s, f, counts, lateness);
}

static int64_t ceiling_j(const Sheet *s, int f, const int *others, int length) {
    bool counts[MOST + 1] = {false};
    int64_t lateness[MOST + 1] = {0};
    for (int i = 0; i < length; i++) {
        int j = others[i];
        counts[j] = s->shares[j][f];
        if (meets_only(s, j, f, others, length)) lateness[j] = s->flow[j].deadline - s->flow[j].latency;
    }
    return least(s, f, counts, lateness);
}

static int64_t asked(Kind kind, const Sheet *s, int f, const int *list, int length) {
    switch (kind) {
    case D: return rule_d(s, f, list, length);
    case J: return rule_j(s, f, list, length);
    case L: return rule_l(s, f, list, length);
    default: return ceiling_j(s, f, list, length);
    }
}

/* The same, each question of a sheet worked out once: its place has the list and f as octal digits. */
static int64_t told(Kind kind, const Sheet *s, int f, const int *list, int length) {
    static struct {
        int sheet;
        int32_t answer;
    } kept[KINDS][1 << 3 * MOST];
    int place = 0;
    for (int i = 0; i < length; i++) place = place * 8 + list[i];
    place = place * 8 + f;
    if (kept[kind][place].sheet != s->number) {
        kept[kind][place].answer = (int32_t)asked(kind, s, f, list, length);
        kept[kind][place].sheet = s->number;
    }
    return kept[kind][place].answer;
}

/* ---- the layers, and the three questions */

static int64_t layered(const Sheet *s, Rule rule, int f, const int *list, int length, int64_t answer) {
    if (!rule.layered || answer == NOTHING) return answer;
    if (s->reserve != NOTHING) answer += s->reserve;
    if (answer > s->flow[f].deadline) return NOTHING;
    for (int p = 0; p < s->pairs; p++)
        for (int i = 0; i < length; i++)
            if (s->first[p] == f && s->later[p] == list[i]) return NOTHING;
    return answer;
}

static int64_t bound(const Sheet *s, Rule rule, int f, const int *above, int length) {
    return layered(s, rule, f, above, length, told(rule.letter, s, f, above, length));
}

static int64_t lowest(const Sheet *s, Rule rule, int f, const int *others, int length) {
    Kind kind = rule.letter == J ? D : rule.letter;
    return layered(s, rule, f, others, length, told(kind, s, f, others, length));
}

static int64_t highest(const Sheet *s, Rule rule, int f, const int *others, int length) {
    Kind kind = rule.letter == J ? CEILING_J : rule.letter;
    return layered(s, rule, f, others, length, told(kind, s, f, others, length));
}

/* ---- the walk */

typedef struct {
    bool found;
    int order[MOST]; /* level 1 first */
    int64_t bounds[MOST];
    int placings;
} Walk;

typedef struct {
    int flow;
    int64_t slack;
} Candidate;

/* The flows that stand on none of the levels below `level`. */
static int unplaced(const Sheet *s, const Walk *w, int level, int *list) {
    int length = 0;
    for (int f = 1; f <= s->count; f++) {
        bool placed = false;
        for (int k = level; k < s->count; k++)
            if (w->order[k] == f) placed = true;
        if (!placed) list[length++] = f;
    }
    return length;
}

/* The flows that have a floor, or a ceiling, under the other free ones, the largest slack first. */
static int candidates(const Sheet *s, Rule rule, bool by_ceiling, const int *flows, int count, Candidate *found) {
    int length = 0;
    for (int i = 0; i < count; i++) {
        int others[MOST], n = 0, f = flows[i];
        for (int k = 0; k < count; k++)
            if (k != i) others[n++] = flows[k];
        int64_t answer = by_ceiling ? highest(s, rule, f, others, n) : lowest(s, rule, f, others, n);
        if (answer == NOTHING) continue;
        int place = length++;
        for (; place > 0 && found[place - 1].slack < s->flow[f].deadline - answer; place--)
            found[place] = found[place - 1];
        found[place] = (Candidate){f, s->flow[f].deadline - answer};
    }
    return length;
}

/* Whether every flow of the order has a bound under those above it. */
static bool passes(const Sheet *s, Rule rule, Walk *w) {
    for (int k = 0; k < s->count; k++) {
        w->bounds[k] = bound(s, rule, w->order[k], w->order, k);
        if (w->bounds[k] == NOTHING) return false;
    }
    return true;
}

/* Fills the levels from `level` up to 1, by ceilings if the lower levels all were; whether that gives an order. */
static bool fill(const Sheet *s, Rule rule, Walk *w, int level, bool by_ceiling) {
    int flows[MOST], count = unplaced(s, w, level, flows), length = 0;
    Candidate found[MOST];
    if (level == 0) return passes(s, rule, w);
    if (by_ceiling) length = candidates(s, rule, true, flows, count, found);
    bool settled = length > 0;
    if (settled)
        length = 1;
    else
        length = candidates(s, rule, false, flows, count, found);
    for (int i = 0; i < length; i++) {
        w->order[level - 1] = found[i].flow;
        w->placings++;
        if (fill(s, rule, w, level - 1, settled)) return true;
    }
    return false;
}

/* ---- all orders */

/* Whether some order that begins with these flows passes. A flow that has no bound under the flows above it has none
   whatever follows below, so no longer beginning is tried then. */
static bool some_order(const Sheet *s, Rule rule, int *order, int length) {
    if (length == s->count) return true;
    for (int f = 1; f <= s->count; f++) {
        bool placed = false;
        for (int k = 0; k < length; k++)
            if (order[k] == f) placed = true;
        if (placed || bound(s, rule, f, order, length) == NOTHING) continue;
        order[length] = f;
        if (some_order(s, rule, order, length + 1)) return true;
    }
    return false;
}

static void stop(const Sheet *s, Rule rule, const char *fault) {
    fprintf(stderr, "sheet %d, rule %c%s: %s\n", s->number, "DJL"[rule.letter], rule.layered ? ", layered" : "", fault);
    exit(1);
}

/* Stops the program unless the order has each flow once and passes with its bounds. */
static void hold_order(const Sheet *s, Rule rule, const Walk *w) {
    bool seen[MOST + 1] = {false};
    for (int k = 0; k < s->count; k++) {
        int f = w->order[k];
        if (seen[f]) stop(s, rule, "a flow stands twice in the order");
        seen[f] = true;
        int64_t answer = layered(s, rule, f, w->order, k, asked(rule.letter, s, f, w->order, k));
        if (answer == NOTHING || answer != w->bounds[k] || answer > s->flow[f].deadline)
            stop(s, rule, "the order does not pass with its bounds");
    }
}

/* The walk, its end held against all orders. */
static Walk walked(const Sheet *s, Rule rule) {
    Walk w = {0};
    int order[MOST];
    w.found = fill(s, rule, &w, s->count, true);
    if (w.found != some_order(s, rule, order, 0)) stop(s, rule, "the walk and all orders differ");
    if (w.found) hold_order(s, rule, &w);
    return w;
}

/* ---- the sheets */

static uint32_t state;

static int draw(int k) {
    state = state * UINT32_C(1664525) + UINT32_C(1013904223);
    return (int)((state / 65536) % (uint32_t)k);
}

#define WORKED \
    { {8, 8, 0, 4, 0, 0, 1, 0}, {10, 10, 0, 4, 0, 0, 2, 0}, {13, 13, 0, 6, 1, 0, 2, 0} }

static const Flow fixed_flows[FIXED][5] = {
    WORKED,
    {{10, 10, 0, 4, 0, 0, 2, 0}, {8, 8, 0, 4, 0, 0, 1, 0}, {13, 13, 0, 6, 1, 0, 2, 0}},
    {{8, 8, 0, 2, 0, 0, 1, 0}, {100, 100, 0, 9, 0, 0, 1, 0}},
    {{8, 8, 0, 2, 0, 0, 1, 0}, {100, 12, 0, 9, 0, 0, 1, 0}},
    {{8, 8, 0, 2, 0, 0, 1, 0}, {100, 100, 0, 13, 0, 0, 1, 0}},
    {{1000000, 1000000, 999999, 300000, 0, 0, 5, 5},
     {999999, 999998, 999998, 250000, 0, 1, 5, 5},
     {1000000, 1000000, 0, 1, 5, 0, 5, 5}},
    {{1000000, 900000, 999999, 100000, 5, 5, 0, 0},
     {500000, 500000, 499999, 50000, 5, 4, 0, 0},
     {1000000, 1000000, 1, 600000, 0, 5, 0, 0},
     {3, 3, 0, 1, 1, 1, 2, 2}},
    {{6, 6, 0, 1, 0, 0, 1, 0}, {9, 9, 0, 3, 0, 0, 3, 0}, {20, 16, 3, 4, 2, 0, 5, 0}, {40, 40, 0, 5, 4, 0, 5, 0}},
    WORKED,
    WORKED,
    WORKED,
};

static void draw_flow(Flow *f, int columns, int rows) {
    f->period = 5 + draw(36);
    f->deadline = f->period - draw((int)f->period / 4 + 1);
    f->latency = 1 + draw((int)f->deadline / 4 + 1);
    f->jitter = draw(2) == 1 ? draw((int)f->period) : 0;
    f->from_x = draw(columns);
    f->from_y = draw(rows);
    f->to_x = draw(columns);
    f->to_y = draw(rows);
    if (f->from_x == f->to_x && f->from_y == f->to_y) f->to_x = (f->to_x + 1) % columns;
}

/* A flow of a row whose links are nearly full. */
static void draw_tight_flow(Flow *f) {
    f->period = 20 + draw(21);
    f->deadline = f->period - draw((int)f->period / 8 + 1);
    f->latency = 1 + f->deadline / 8 + draw((int)f->deadline / 6 + 1);
    f->jitter = draw(3);
    f->from_x = draw(5);
    f->to_x = f->from_x + 1 + draw(3);
    if (f->to_x > 5) f->to_x = 5;
    f->from_y = f->to_y = 0;
}

static void fix_flows(Sheet *s) {
    const Flow *flows = fixed_flows[s->number - 1];
    for (s->count = 0; s->count < 5 && flows[s->count].period > 0; s->count++) s->flow[s->count + 1] = flows[s->count];
}

static void draw_flows(Sheet *s) {
    bool wide = s->number % 5 == 0;
    s->count = 1 + draw(7);
    for (int f = 1; f <= s->count; f++) draw_flow(&s->flow[f], wide ? 6 : 3, wide ? 6 : 2);
}

static void draw_tight_flows(Sheet *s) {
    s->count = MOST;
    for (int f = 1; f <= s->count; f++) draw_tight_flow(&s->flow[f]);
}

static void draw_layers(Sheet *s) {
    s->reserve = draw(5);
    s->pairs = s->count >= 2 ? 1 + draw(2) : 0;
    for (int p = 0; p < s->pairs; p++) {
        s->first[p] = 1 + draw(s->count);
        s->later[p] = 1 + draw(s->count);
        if (s->later[p] == s->first[p]) s->later[p] = s->later[p] % s->count + 1;
    }
}

/* Sheets 9 to 11: the reserve alone, or one pair alone with flow 1 first. */
static void fix_layers(Sheet *s) {
    s->reserve = s->number == 9 ? 1 : NOTHING;
    s->pairs = s->number == 9 ? 0 : 1;
    s->first[0] = 1;
    s->later[0] = s->number == 10 ? 3 : 2;
}

static void make(Sheet *s, int number) {
    state = (uint32_t)number;
    s->number = number;
    if (number <= FIXED)
        fix_flows(s);
    else if (number <= MIXED)
        draw_flows(s);
    else
        draw_tight_flows(s);
    if (9 <= number && number <= FIXED)
        fix_layers(s);
    else
        draw_layers(s);
    find_sharing(s);
}

/* ---- the table */

static void print_answer(int64_t answer) {
    if (answer == NOTHING)
        printf(" -");
    else
        printf(" %lld", (long long)answer);
}

static void print_head(const Sheet *s, Rule rule) {
    printf("%d %c", s->number, "DJL"[rule.letter]);
    if (rule.layered && s->reserve != NOTHING)
        printf(" %lld ", (long long)s->reserve);
    else
        printf(" - ");
    if (!rule.layered || s->pairs == 0) printf("-");
    for (int p = 0; rule.layered && p < s->pairs; p++) printf("%s%d>%d", p > 0 ? "," : "", s->first[p], s->later[p]);
}

static void print_answers(const Sheet *s, Rule rule) {
    int list[MOST];
    printf(" |");
    for (int f = 1; f <= s->count; f++) {
        int length = 0;
        for (int g = 1; g < f; g++) list[length++] = g;
        print_answer(bound(s, rule, f, list, length));
    }
    printf(" |");
    for (int f = 1; f <= s->count; f++) {
        int length = 0;
        for (int g = s->count; g > f; g--) list[length++] = g;
        print_answer(bound(s, rule, f, list, length));
    }
    for (int question = 0; question < 2; question++) {
        printf(" |");
        for (int f = 1; f <= s->count; f++) {
            int length = 0;
            for (int g = 1; g <= s->count; g++)
                if (g != f) list[length++] = g;
            print_answer(question == 0 ? lowest(s, rule, f, list, length) : highest(s, rule, f, list, length));
        }
    }
}

/* How the walk stands after so many placings. */
static const char *standing(const Walk *w, int placings) {
    if (placings < w->placings) return "open";
    return w->found ? "order" : "no order";
}

static void print_walk(const Sheet *s, Rule rule) {
    Walk w = walked(s, rule);
    printf(" |");
    if (!w.found) printf(" no order");
    for (int k = 0; w.found && k < s->count; k++) printf(" %d:%lld", w.order[k], (long long)w.bounds[k]);
    printf(" | %d | %s, %s", w.placings, standing(&w, 4), standing(&w, 5));
}

static void print_line(const Sheet *s, Rule rule) {
    print_head(s, rule);
    print_answers(s, rule);
    print_walk(s, rule);
    printf("\n");
}

int main(void) {
    static Sheet sheet;
    for (int number = 1; number <= LAST; number++) {
        make(&sheet, number);
        for (Kind letter = D; letter <= L; letter++) {
            print_line(&sheet, (Rule){letter, false});
            print_line(&sheet, (Rule){letter, true});
        }
    }
    return 0;
}
