/* What marking, refreshing and a step cost: the proved functions beside a twin of the same tables in C that checks nothing. Prints nanoseconds, the least of many rounds. */
#include <stdint.h>
#include <stdio.h>
#include <string.h>
#include <time.h>

typedef struct { void *at; size_t n; } Slice;

/* a slice comes as two registers: pointer and length */
uint64_t look_link(const uint8_t *, size_t, size_t *);
void look_start(const size_t *, uint8_t *, size_t, uint8_t *, size_t, uint8_t *, size_t);
void look_set_out(const size_t *, uint8_t *, size_t, size_t, _Bool);
void look_refresh(const size_t *, uint8_t *, size_t);
uint64_t look_chain(const size_t *, uint8_t *, size_t, uint8_t *, size_t, uint8_t *, size_t, size_t, uint64_t);

enum { GATES = 64, LINKS = 4816, AREA = 65536, ROUNDS = 20000, STEPS = 1000000 };

static size_t links[LINKS];
static uint64_t values[AREA / 8], units[AREA / 8], delays[AREA / 8];

static double now(void) {
    struct timespec t;
    clock_gettime(CLOCK_MONOTONIC, &t);
    return t.tv_sec * 1e9 + t.tv_nsec;
}

/* ---- circuits: sizes G K I C, constants, gates (kinds, ranks), inputs (sources, stored), calls (outputs, targets) */

static uint64_t words[4096];
static size_t length;

static void put(uint64_t w) { words[length++] = w; }

/* a Var that 63 Reroutes read */
static void fan(void) {
    length = 0;
    put(GATES), put(0), put(GATES), put(0);
    for (int g = 0; g < GATES; g++) put(g ? 2 : 5);
    for (int g = 0; g < GATES; g++) put(0);
    for (int i = 0; i < GATES; i++) put(i ? 0 : (uint64_t)-1);
    for (int i = 0; i < GATES; i++) put(0);
}

/* two gates of a kind with so many inputs and outputs, each called by the other's output 0 */
static void ring(int kind, int inputs, int outputs) {
    length = 0;
    put(2), put(0), put(2 * inputs), put(2);
    put(kind), put(kind), put(0), put(0);
    for (int i = 0; i < 2 * inputs; i++) put((uint64_t)-1);
    for (int i = 0; i < 2 * inputs; i++) put(0);
    put(0), put(outputs);
    put(2 * inputs), put(0);
}

/* ---- the twin */

static struct {
    int kind[GATES], first_input[GATES], first_output[GATES];
    int gate_of_input[640], source[640], gate_of_output[576];
    int first_reader[577], reader[640], first_call[577], call[256];
    uint64_t out_kind[576], out_content[576], dirty;
    int stack[256];
} t;

static void twin_mark(int o) {
    int work[65], n = 1;
    work[0] = o;
    while (n) {
        int at = work[--n];
        for (int k = t.first_reader[at]; k < t.first_reader[at + 1]; k++) {
            int g = t.gate_of_input[t.reader[k]];
            if (t.kind[g] >= 1 && t.kind[g] <= 4 && !(t.dirty >> g & 1)) {
                t.dirty |= 1ull << g;
                work[n++] = t.first_output[g];
            }
        }
    }
}

static void __attribute__((noinline)) twin_set_out(int o, int v) {
    if (t.out_kind[o] == 3 && t.out_content[o] == (uint64_t)v) return;
    t.out_kind[o] = 3, t.out_content[o] = v;
    twin_mark(o);
}

static void twin_refresh_gate(int g) {
    int i = t.first_input[g], o = t.source[i];
    if (o >= 0 && t.dirty >> t.gate_of_output[o] & 1) twin_refresh_gate(t.gate_of_output[o]);
    t.out_kind[t.first_output[g]] = o >= 0 ? t.out_kind[o] : 0;
    t.out_content[t.first_output[g]] = o >= 0 ? t.out_content[o] : 0;
    t.dirty &= ~(1ull << g);
}

static void __attribute__((noinline)) twin_refresh(void) {
    while (t.dirty) twin_refresh_gate(__builtin_ctzll(t.dirty));
}

static uint64_t __attribute__((noinline)) twin_chain(int i, uint64_t left) {
    int n = 1;
    t.stack[0] = i;
    while (n && left) {
        int in = t.stack[--n], g = t.gate_of_input[in], o;
        switch (t.kind[g]) {
        case 2: o = t.first_output[g]; break;
        case 22:
            o = t.first_output[g];
            twin_set_out(o + 1, !(t.out_kind[o + 1] == 3 && t.out_content[o + 1]));
            break;
        default: o = -1;
        }
        left--;
        if (o >= 0)
            for (int k = t.first_call[o + 1]; k-- > t.first_call[o];) t.stack[n++] = t.call[k];
    }
    return left;
}

static void twin_fan(void) {
    memset(&t, 0, sizeof t);
    for (int g = 0; g < GATES; g++) {
        t.kind[g] = g ? 2 : 5, t.first_input[g] = t.first_output[g] = g;
        t.gate_of_input[g] = t.gate_of_output[g] = g, t.source[g] = g ? 0 : -1;
    }
    for (int k = 0; k < 63; k++) t.reader[k] = k + 1;
    for (int o = 1; o <= 576; o++) t.first_reader[o] = 63;
}

static void twin_ring(int kind, int inputs, int outputs) {
    memset(&t, 0, sizeof t);
    for (int g = 0; g < 2; g++) {
        t.kind[g] = kind, t.first_input[g] = g * inputs, t.first_output[g] = g * outputs;
        for (int i = 0; i < inputs; i++) t.gate_of_input[g * inputs + i] = g, t.source[g * inputs + i] = -1;
        for (int o = 0; o < outputs; o++) t.gate_of_output[g * outputs + o] = g;
    }
    t.call[0] = inputs, t.call[1] = 0;
    for (int o = 0; o <= 576; o++) t.first_call[o] = o == 0 ? 0 : o <= outputs ? 1 : 2;
}

/* ---- timing: code and twin by turns */

static void load(void) {
    uint64_t refused = look_link((uint8_t *)words, length * 8, links);
    if (refused) printf("refused %lu\n", refused);
    look_start(links, (uint8_t *)values, AREA, (uint8_t *)units, AREA, (uint8_t *)delays, AREA);
}

static void line(const char *what, double code, double twin) { printf("%-16s %6.2f ns   twin %6.2f ns   ratio %.2f\n", what, code, twin, code / twin); }

static void steps(const char *what, int kind, int inputs, int outputs) {
    double code = 1e18, twin = 1e18;
    ring(kind, inputs, outputs);
    load();
    twin_ring(kind, inputs, outputs);
    for (int r = 0; r < 15; r++) {
        double a = now();
        uint64_t left = look_chain(links, (uint8_t *)values, AREA, (uint8_t *)units, AREA, (uint8_t *)delays, AREA, 0, STEPS);
        double b = now();
        uint64_t other = twin_chain(0, STEPS);
        double c = now();
        if (left || other) printf("left %lu %lu\n", left, other);
        if (b - a < code) code = b - a;
        if (c - b < twin) twin = c - b;
    }
    line(what, code / STEPS, twin / STEPS);
}

int main(void) {
    double mark = 1e18, mark_twin = 1e18, fresh = 1e18, fresh_twin = 1e18;
    fan();
    load();
    twin_fan();
    for (int r = 0; r < ROUNDS; r++) {
        double a = now();
        look_set_out(links, (uint8_t *)values, AREA, 0, r % 2);
        double b = now();
        look_refresh(links, (uint8_t *)values, AREA);
        double c = now();
        twin_set_out(0, r % 2);
        double d = now();
        twin_refresh();
        double e = now();
        if (r == 0) continue;
        if (b - a < mark) mark = b - a;
        if (c - b < fresh) fresh = c - b;
        if (d - c < mark_twin) mark_twin = d - c;
        if (e - d < fresh_twin) fresh_twin = e - d;
    }
    line("marked reader", mark / 63, mark_twin / 63);
    line("refreshed gate", fresh / 63, fresh_twin / 63);
    steps("step, Reroute", 2, 1, 1);
    steps("step, Toggle", 22, 1, 2);
    return 0;
}
