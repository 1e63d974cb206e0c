/* The same steps in tuned C: one table by class of cell without a branch, eight twists at a time, and streaming that the compiler makes wide.
   Walls and fan cells are listed once, so that pushes cost nothing elsewhere. */
#include <stdint.h>
#include <stddef.h>
#include <string.h>

enum { STATES = 128, OPEN = 0, FAN = 2 * STATES, WALL = 4 * STATES, CELLS = 16384 };

/* What eight steps of the register make of its low byte. */
static uint16_t eight[256];

/* The outcome of a state by class and twist, with the fan at rest and acting. */
static uint8_t outcomes[2][6 * STATES];

/* Twice a state's momentum, along and across. */
static int64_t pushes[STATES][2];

/* The class of each cell, and the cells that are walls and fans. */
static uint16_t class[CELLS];
static uint16_t walls[CELLS];
static uint16_t fans[CELLS];

static uint32_t shifted(uint32_t mark) { return mark >> 1 ^ (mark & 1 ? 0xB400 : 0); }

static void prepare(const uint8_t *entries) {
    static const int vectors[7][2] = {{2, 0}, {1, 1}, {-1, 1}, {-2, 0}, {-1, -1}, {1, -1}, {0, 0}};
    for (int b = 0; b < 256; b++) {
        uint32_t mark = b;
        for (int i = 0; i < 8; i++)
            mark = shifted(mark);
        eight[b] = mark;
    }
    for (int k = 0; k < 2 * STATES; k++) {
        uint8_t s = k % STATES, out = entries[k];
        for (int acts = 0; acts < 2; acts++) {
            outcomes[acts][OPEN + k] = out;
            outcomes[acts][FAN + k] = acts && (out & 9) == 8 ? out - 7 : out;
            outcomes[acts][WALL + k] = (s & 7) << 3 | (s >> 3 & 7) | (s & 64);
        }
    }
    for (int s = 0; s < STATES; s++)
        for (int part = 0; part < 2; part++) {
            pushes[s][part] = 0;
            for (int q = 0; q < 7; q++)
                pushes[s][part] += 2 * (s >> q & 1) * vectors[q][part];
        }
}

static uint32_t collide(const uint8_t *restrict outcome, const uint8_t *restrict field, uint8_t *restrict spare, size_t cells, uint32_t mark) {
    size_t i = 0;
    for (; i + 8 <= cells; i += 8) {
        unsigned twists = mark & 255;
        mark = mark >> 8 ^ eight[twists];
        for (int k = 0; k < 8; k++)
            spare[i + k] = outcome[class[i + k] + ((twists >> k & 1) << 7) + field[i + k]];
    }
    for (; i < cells; i++) {
        spare[i] = outcome[class[i] + ((mark & 1) << 7) + field[i]];
        mark = shifted(mark);
    }
    return mark;
}

/* Twice the momentum in each wall, to its obstacle's account. */
static void settle(const uint8_t *restrict map, const uint8_t *restrict field, size_t count, int64_t accounts[16][2]) {
    for (size_t k = 0; k < count; k++) {
        size_t i = walls[k];
        accounts[map[i] - 1][0] += pushes[field[i]][0];
        accounts[map[i] - 1][1] += pushes[field[i]][1];
    }
}

/* How many particles an acting fan turned: collisions keep the momentum along, and each turn adds 4 to it. */
static int64_t turned(const uint8_t *restrict field, const uint8_t *restrict spare, size_t count) {
    int64_t twice = 0;
    for (size_t k = 0; k < count; k++)
        twice += pushes[spare[fans[k]]][0] - pushes[field[fans[k]]][0];
    return twice / 8;
}

static inline uint8_t mixed(uint8_t e, uint8_t ne, uint8_t nw, uint8_t w, uint8_t sw, uint8_t se, uint8_t rest) {
    return (e & 1) | (ne & 2) | (nw & 4) | (w & 8) | (sw & 16) | (se & 32) | (rest & 64);
}

static void stream(const uint8_t *restrict from, uint8_t *restrict to, size_t width, size_t height) {
    for (size_t row = 0; row < height; row++) {
        const uint8_t *here = from + row * width;
        const uint8_t *south = from + (row ? row - 1 : height - 1) * width;
        const uint8_t *north = from + (row + 1 < height ? row + 1 : 0) * width;
        uint8_t *out = to + row * width;
        size_t odd = row & 1, last = width - 1, wrap = odd ? 0 : last;
        out[0] = mixed(here[last], south[wrap], south[odd], here[1], north[odd], north[wrap], here[0]);
        for (size_t c = 1; c < last; c++)
            out[c] = mixed(here[c - 1], south[c + odd - 1], south[c + odd], here[c + 1], north[c + odd], north[c + odd - 1], here[c]);
        out[last] = mixed(here[last - 1], south[last + odd - 1], south[wrap], here[0], north[wrap], north[last + odd - 1], here[last]);
    }
}

uint32_t tuned_steps(const uint8_t *entries, size_t width, size_t height, uint32_t period, uint32_t count,
                     const uint8_t *map, uint8_t *field, uint8_t *spare, int64_t accounts[16][2]) {
    size_t cells = width * height, wall_count = 0, fan_count = 0;
    uint32_t mark = 0xACE1;
    prepare(entries);
    memset(accounts, 0, 16 * sizeof *accounts);
    for (size_t i = 0; i < cells; i++) {
        class[i] = map[i] == 0 ? OPEN : map[i] == 16 ? FAN : WALL;
        if (class[i] == WALL)
            walls[wall_count++] = i;
        if (class[i] == FAN)
            fans[fan_count++] = i;
    }
    for (uint32_t step = 0; step < count; step++) {
        int acts = period && step % period == 0;
        settle(map, field, wall_count, accounts);
        mark = collide(outcomes[acts], field, spare, cells, mark);
        if (acts)
            accounts[15][0] += 4 * turned(field, spare, fan_count);
        stream(spare, field, width, height);
    }
    return mark;
}
