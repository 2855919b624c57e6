/* The second program of the rule trials: bounds, floors and ceilings straight from the equations of docs/RULES.md,
   on the sheets of docs/RULE-TRIALS.md. It has nothing in common with the library but these two pages. */
#include <stdbool.h>
#include <stdint.h>
#include <stdio.h>
#include <string.h>

enum { MOST = 7, SIDE = 6, LINKS = SIDE * SIDE * 6, FIXED = 8, LAST = 240, NOTHING = -1 };
enum { IN, OUT, EAST, WEST, NORTH, SOUTH };

typedef struct {
    int64_t period, deadline, jitter, latency;
    int from_x, from_y, to_x, to_y;
} Flow;

typedef struct {
    int count;
    Flow flow[MOST + 1]; /* by number, from 1 */
    bool shares[MOST + 1][MOST + 1];
    int64_t reserve;
    int pairs, first[2], later[2];
} Sheet;

typedef struct {
    char letter;
    bool layered;
} Rule;

/* ---- routes */

static void mark(bool *route, int x, int y, int port) { route[(x * SIDE + y) * 6 + port] = true; }

static void walk(const Flow *f, bool *route) {
    int x = f->from_x, y = f->from_y;
    memset(route, 0, LINKS * sizeof *route);
    mark(route, x, y, IN);
    while (x < f->to_x) mark(route, x++, y, EAST);
    while (x > f->to_x) mark(route, x--, y, WEST);
    while (y < f->to_y) mark(route, x, y++, NORTH);
    while (y > f->to_y) mark(route, x, y--, SOUTH);
    mark(route, x, y, OUT);
}

static void find_sharing(Sheet *s) {
    static bool route[MOST + 1][LINKS];
    for (int f = 1; f <= s->count; f++) walk(&s->flow[f], route[f]);
    for (int f = 1; f <= s->count; f++)
        for (int g = 1; g <= s->count; g++) {
            s->shares[f][g] = false;
            for (int k = 0; k < LINKS; k++)
                if (route[f][k] && route[g][k]) s->shares[f][g] = true;
        }
}

/* ---- the equation, tried with every number up to the deadline */

static int64_t least(const Sheet *s, int f, const bool *counts, const int64_t *lateness) {
    for (int64_t r = 0; r <= s->flow[f].deadline; r++) {
        int64_t sum = s->flow[f].latency;
        for (int j = 1; j <= s->count; j++)
            if (counts[j]) {
                int64_t n = r + s->flow[j].jitter + lateness[j], t = s->flow[j].period;
                sum += (n / t + (n % t != 0)) * s->flow[j].latency;
            }
        if (sum == r) return r;
    }
    return NOTHING;
}

/* Whether one of the listed flows shares with j and not with f. */
static bool meets_only(const Sheet *s, int j, int f, const int *list, int length) {
    for (int i = 0; i < length; i++)
        if (list[i] != j && s->shares[list[i]][j] && !s->shares[list[i]][f]) return true;
    return false;
}

static int64_t rule_d(const Sheet *s, int f, const int *above, int length) {
    bool counts[MOST + 1] = {false};
    int64_t lateness[MOST + 1] = {0};
    for (int i = 0; i < length; i++) counts[above[i]] = s->shares[above[i]][f];
    return least(s, f, counts, lateness);
}

static int64_t rule_l(const Sheet *s, int f, const int *above, int length) {
    bool counts[MOST + 1] = {false};
    int64_t lateness[MOST + 1] = {0};
    for (int i = 0; i < length; i++) {
        int j = above[i];
        counts[j] = s->shares[j][f];
        for (int k = 0; k < length; k++)
            if (s->shares[above[k]][f] && s->shares[j][above[k]]) counts[j] = true;
    }
    return least(s, f, counts, lateness);
}

static int64_t rule_j(const Sheet *s, int f, const int *above, int length) {
    bool counts[MOST + 1] = {false};
    int64_t lateness[MOST + 1] = {0};
    for (int i = 0; i < length; i++) {
        int j = above[i];
        int64_t r = rule_j(s, j, above, i);
        if (r == NOTHING) return NOTHING;
        counts[j] = s->shares[j][f];
        if (meets_only(s, j, f, above, i)) lateness[j] = r - s->flow[j].latency;
    }
    return least(s, f, counts, lateness);
}

static int64_t ceiling_j(const Sheet *s, int f, const int *others, int length) {
    bool counts[MOST + 1] = {false};
    int64_t lateness[MOST + 1] = {0};
    for (int i = 0; i < length; i++) {
        int j = others[i];
        counts[j] = s->shares[j][f];
        if (meets_only(s, j, f, others, length)) lateness[j] = s->flow[j].deadline - s->flow[j].latency;
    }
    return least(s, f, counts, lateness);
}

/* ---- the layers, and the three questions */

static int64_t layered(const Sheet *s, Rule rule, int f, const int *list, int length, int64_t answer) {
    if (!rule.layered || answer == NOTHING) return answer;
    answer += s->reserve;
    if (answer > s->flow[f].deadline) return NOTHING;
    for (int p = 0; p < s->pairs; p++)
        for (int i = 0; i < length; i++)
            if (s->first[p] == f && s->later[p] == list[i]) return NOTHING;
    return answer;
}

static int64_t bound(const Sheet *s, Rule rule, int f, const int *above, int length) {
    int64_t answer = rule.letter == 'D'   ? rule_d(s, f, above, length)
                     : rule.letter == 'L' ? rule_l(s, f, above, length)
                                          : rule_j(s, f, above, length);
    return layered(s, rule, f, above, length, answer);
}

static int64_t lowest(const Sheet *s, Rule rule, int f, const int *others, int length) {
    int64_t answer = rule.letter == 'L' ? rule_l(s, f, others, length) : rule_d(s, f, others, length);
    return layered(s, rule, f, others, length, answer);
}

static int64_t highest(const Sheet *s, Rule rule, int f, const int *others, int length) {
    int64_t answer = rule.letter == 'D'   ? rule_d(s, f, others, length)
                     : rule.letter == 'L' ? rule_l(s, f, others, length)
                                          : ceiling_j(s, f, others, length);
    return layered(s, rule, f, others, length, answer);
}

/* ---- the sheets */

static uint32_t state;

static int draw(int k) {
    state = state * UINT32_C(1664525) + UINT32_C(1013904223);
    return (int)((state / 65536) % (uint32_t)k);
}

static const Flow fixed_flows[FIXED][5] = {
    {{8, 8, 0, 4, 0, 0, 1, 0}, {10, 10, 0, 4, 0, 0, 2, 0}, {13, 13, 0, 6, 1, 0, 2, 0}},
    {{10, 10, 0, 4, 0, 0, 2, 0}, {8, 8, 0, 4, 0, 0, 1, 0}, {13, 13, 0, 6, 1, 0, 2, 0}},
    {{8, 8, 0, 2, 0, 0, 1, 0}, {100, 100, 0, 9, 0, 0, 1, 0}},
    {{8, 8, 0, 2, 0, 0, 1, 0}, {100, 12, 0, 9, 0, 0, 1, 0}},
    {{8, 8, 0, 2, 0, 0, 1, 0}, {100, 100, 0, 13, 0, 0, 1, 0}},
    {{1000000, 1000000, 999999, 300000, 0, 0, 5, 5},
     {999999, 999998, 999998, 250000, 0, 1, 5, 5},
     {1000000, 1000000, 0, 1, 5, 0, 5, 5}},
    {{1000000, 900000, 999999, 100000, 5, 5, 0, 0},
     {500000, 500000, 499999, 50000, 5, 4, 0, 0},
     {1000000, 1000000, 1, 600000, 0, 5, 0, 0},
     {3, 3, 0, 1, 1, 1, 2, 2}},
    {{6, 6, 0, 1, 0, 0, 1, 0}, {9, 9, 0, 3, 0, 0, 3, 0}, {20, 16, 3, 4, 2, 0, 5, 0}, {40, 40, 0, 5, 4, 0, 5, 0}},
};

static void draw_flow(Flow *f, int columns, int rows) {
    f->period = 5 + draw(36);
    f->deadline = f->period - draw((int)f->period / 4 + 1);
    f->latency = 1 + draw((int)f->deadline / 4 + 1);
    f->jitter = draw(2) == 1 ? draw((int)f->period) : 0;
    f->from_x = draw(columns);
    f->from_y = draw(rows);
    f->to_x = draw(columns);
    f->to_y = draw(rows);
    if (f->from_x == f->to_x && f->from_y == f->to_y) f->to_x = (f->to_x + 1) % columns;
}

static void make(Sheet *s, int number) {
    state = (uint32_t)number;
    s->count = 0;
    if (number <= FIXED) {
        while (s->count < 5 && fixed_flows[number - 1][s->count].period > 0) {
            s->flow[s->count + 1] = fixed_flows[number - 1][s->count];
            s->count++;
        }
    } else {
        bool wide = number % 5 == 0;
        s->count = 1 + draw(7);
        for (int f = 1; f <= s->count; f++) draw_flow(&s->flow[f], wide ? 6 : 3, wide ? 6 : 2);
    }
    s->reserve = draw(5);
    s->pairs = s->count >= 2 ? 1 + draw(2) : 0;
    for (int p = 0; p < s->pairs; p++) {
        s->first[p] = 1 + draw(s->count);
        s->later[p] = 1 + draw(s->count);
        if (s->later[p] == s->first[p]) s->later[p] = s->later[p] % s->count + 1;
    }
    find_sharing(s);
}

/* ---- the table */

static void print_answer(int64_t answer) {
    if (answer == NOTHING)
        printf(" -");
    else
        printf(" %lld", (long long)answer);
}

static void print_line(const Sheet *s, int number, Rule rule) {
    int list[MOST];
    printf("%d %c", number, rule.letter);
    if (rule.layered)
        printf(" %lld ", (long long)s->reserve);
    else
        printf(" - ");
    if (!rule.layered || s->pairs == 0) printf("-");
    for (int p = 0; rule.layered && p < s->pairs; p++) printf("%s%d>%d", p > 0 ? "," : "", s->first[p], s->later[p]);
    printf(" |");
    for (int f = 1; f <= s->count; f++) {
        int length = 0;
        for (int g = 1; g < f; g++) list[length++] = g;
        print_answer(bound(s, rule, f, list, length));
    }
    printf(" |");
    for (int f = 1; f <= s->count; f++) {
        int length = 0;
        for (int g = s->count; g > f; g--) list[length++] = g;
        print_answer(bound(s, rule, f, list, length));
    }
    for (int question = 0; question < 2; question++) {
        printf(" |");
        for (int f = 1; f <= s->count; f++) {
            int length = 0;
            for (int g = 1; g <= s->count; g++)
                if (g != f) list[length++] = g;
            print_answer(question == 0 ? lowest(s, rule, f, list, length) : highest(s, rule, f, list, length));
        }
    }
    printf("\n");
}

int main(void) {
    static Sheet sheet;
    for (int number = 1; number <= LAST; number++) {
        make(&sheet, number);
        for (int i = 0; i < 3; i++) {
            print_line(&sheet, number, (Rule){"DJL"[i], false});
            print_line(&sheet, number, (Rule){"DJL"[i], true});
        }
    }
    return 0;
}
