/* The walk of docs/SEARCH.md written by hand for speed, as the measure that the library's search is held to. Reads a
   sound sheet (docs/SHEET.md) on standard input, allows the walk 1,000,000 placings, and prints what laneplan prints:
   a line `level label bound` for each level, or `no order` or `open`, and then `placings N`. */
#include <stdbool.h>
#include <stdint.h>
#include <stdio.h>
#include <string.h>

enum { MOST = 20, SIDE = 6, LINKS = SIDE * SIDE * 6, BYTES = 1024, ALLOWED = 1000000, NONE = 0 };
enum { IN, OUT, EAST, WEST, NORTH, SOUTH };

typedef uint32_t Set; /* bit f for flow f, from 0 */

typedef struct {
    uint32_t period, deadline, jitter, latency;
    uint32_t limit; /* what a bound without reserve may be at most */
    Set meets;      /* the other flows that share a link */
    Set barred;     /* the flows that may not stand above */
    uint16_t label;
} Flow;

typedef enum { OPEN, ORDER, NO_ORDER } Outcome;

static Flow flow[MOST];
static int count;
static char letter;
static uint32_t reserve;

static int order[MOST]; /* level 1 first */
static uint32_t bounds[MOST];
static uint32_t placings;

/* ---- the sheet */

static uint32_t number(const uint8_t *bytes, int length) {
    uint32_t n = 0;
    for (int i = 0; i < length; i++) n = n << 8 | bytes[i];
    return n;
}

static int flow_of(uint32_t label) {
    int f = 0;
    while (flow[f].label != label) f++;
    return f;
}

static void mark(bool *route, int x, int y, int port) { route[(x * SIDE + y) * 6 + port] = true; }

static void walk_route(const uint8_t *ends, bool *route) {
    int x = ends[0], y = ends[1];
    mark(route, x, y, IN);
    while (x < ends[2]) mark(route, x++, y, EAST);
    while (x > ends[2]) mark(route, x--, y, WEST);
    while (y < ends[3]) mark(route, x, y++, NORTH);
    while (y > ends[3]) mark(route, x, y--, SOUTH);
    mark(route, x, y, OUT);
}

static void read_flow(const uint8_t *value) {
    static bool route[MOST][LINKS];
    Flow *f = &flow[count];
    f->label = (uint16_t)number(value, 2);
    f->period = number(value + 2, 4);
    f->deadline = number(value + 6, 4);
    f->jitter = number(value + 10, 4);
    f->latency = number(value + 14, 4);
    walk_route(value + 18, route[count]);
    for (int g = 0; g < count; g++)
        for (int k = 0; k < LINKS; k++)
            if (route[count][k] && route[g][k]) {
                f->meets |= (Set)1 << g;
                flow[g].meets |= (Set)1 << count;
                break;
            }
    count++;
}

static void read_sheet(const uint8_t *at) {
    for (; at[0] != 5; at += 3 + number(at + 1, 2)) switch (at[0]) {
        case 1: letter = (char)at[3]; break;
        case 2: read_flow(at + 3); break;
        case 3: reserve = number(at + 3, 4); break;
        case 4: flow[flow_of(number(at + 3, 2))].barred |= (Set)1 << flow_of(number(at + 5, 2)); break;
        }
    for (int f = 0; f < count; f++) flow[f].limit = flow[f].deadline > reserve ? flow[f].deadline - reserve : 0;
}

/* ---- the rules */

/* The least solution for f up to a limit, each counted flow j late by up to late[j] besides its release jitter. */
static uint32_t least(const Flow *f, uint32_t limit, Set counted, const uint32_t *late) {
    uint32_t r = f->latency;
    for (Set left = counted; left; left &= left - 1) r += flow[__builtin_ctz(left)].latency;
    while (r <= limit) {
        uint32_t sum = f->latency;
        for (Set left = counted; left; left &= left - 1) {
            int g = __builtin_ctz(left);
            const Flow *j = &flow[g];
            sum += (r + j->jitter + late[g] + j->period - 1) / j->period * j->latency;
        }
        if (sum == r) return r;
        r = sum;
    }
    return NONE;
}

/* The flows of a set that count under the rule's letter. */
static Set counted(const Flow *f, Set set) {
    Set direct = set & f->meets, near = direct;
    if (letter == 'L')
        for (Set left = direct; left; left &= left - 1) near |= flow[__builtin_ctz(left)].meets;
    return near & set;
}

static uint32_t floor_of(int f, Set others) {
    static const uint32_t late[MOST];
    if (others & flow[f].barred) return NONE;
    return least(&flow[f], flow[f].limit, counted(&flow[f], others), late);
}

static uint32_t ceiling_of(int f, Set others) {
    uint32_t late[MOST];
    if (letter != 'J') return floor_of(f, others);
    if (others & flow[f].barred) return NONE;
    Set direct = others & flow[f].meets;
    for (Set left = direct; left; left &= left - 1) {
        int j = __builtin_ctz(left);
        late[j] = others & flow[j].meets & ~flow[f].meets ? flow[j].deadline - flow[j].latency : 0;
    }
    return least(&flow[f], flow[f].limit, direct, late);
}

/* Whether all flows of the order have bounds, which are settled from level 1 downward. */
static bool passes(void) {
    uint32_t late[MOST] = {0}, lag[MOST]; /* by flow: the lateness for the flow at hand, and bound - latency */
    Set above = 0, over[MOST];            /* by flow: those above it that share with it */
    for (int k = 0; k < count; k++) {
        int g = order[k];
        const Flow *f = &flow[g];
        Set near = counted(f, above);
        if (letter == 'J')
            for (Set left = near; left; left &= left - 1) {
                int j = __builtin_ctz(left);
                late[j] = over[j] & ~f->meets ? lag[j] : 0;
            }
        uint32_t r = above & f->barred ? NONE : least(f, f->limit, near, late);
        if (r == NONE) return false;
        bounds[k] = r + reserve;
        lag[g] = r - f->latency;
        over[g] = above & f->meets;
        above |= (Set)1 << g;
    }
    return true;
}

/* ---- the walk */

typedef struct {
    int length, flow[MOST];
    uint32_t slack[MOST];
} Candidates;

/* Puts f behind the candidates with at least its slack; flows come in the order of their numbers. */
static void insert(Candidates *c, int f, uint32_t slack) {
    int i = c->length++;
    for (; i > 0 && c->slack[i - 1] < slack; i--) {
        c->slack[i] = c->slack[i - 1];
        c->flow[i] = c->flow[i - 1];
    }
    c->slack[i] = slack;
    c->flow[i] = f;
}

static void by_floor(Candidates *c, Set free) {
    c->length = 0;
    for (Set left = free; left; left &= left - 1) {
        int f = __builtin_ctz(left);
        uint32_t r = floor_of(f, free & ~((Set)1 << f));
        if (r != NONE) insert(c, f, flow[f].limit - r);
    }
}

/* The one flow with the largest deadline - ceiling, if any has a ceiling. */
static void by_ceiling(Candidates *c, Set free) {
    c->length = 0;
    for (Set left = free; left; left &= left - 1) {
        int f = __builtin_ctz(left);
        uint32_t r = ceiling_of(f, free & ~((Set)1 << f));
        if (r != NONE) insert(c, f, flow[f].limit - r);
    }
    if (c->length > 1) c->length = 1;
}

/* Fills the levels from `level` up to 1; `sure` says that all lower ones were settled by ceiling. */
static Outcome fill(int level, Set free, bool sure) {
    Candidates c;
    if (level == 0) return passes() ? ORDER : NO_ORDER;
    if (sure) by_ceiling(&c, free);
    sure = sure && c.length > 0;
    if (!sure) by_floor(&c, free);
    for (int i = 0; i < c.length; i++) {
        if (placings == ALLOWED) return OPEN;
        placings++;
        order[level - 1] = c.flow[i];
        Outcome outcome = fill(level - 1, free & ~((Set)1 << c.flow[i]), sure);
        if (outcome != NO_ORDER) return outcome;
    }
    return NO_ORDER;
}

int main(void) {
    static uint8_t bytes[BYTES];
    if (fread(bytes, 1, BYTES, stdin) == 0) {
        fputs("walk: no sheet on standard input\n", stderr);
        return 1;
    }
    read_sheet(bytes);
    Outcome outcome = fill(count, ((Set)1 << count) - 1, true);
    if (outcome == OPEN) puts("open");
    if (outcome == NO_ORDER) puts("no order");
    for (int k = 0; outcome == ORDER && k < count; k++) printf("%d %u %u\n", k + 1, flow[order[k]].label, bounds[k]);
    printf("placings %u\n", placings);
    return 0;
}
