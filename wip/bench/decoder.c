/* A sphere search for three NPC legs under the squared measure, written by hand as one would on a board, and the same
 * stream of tasks as crates/bench_decoder. It answers to the same rule, so that nodes and checksums must agree.
 *
 * Usage: decoder TIMES    goes through the stream so many times; prints nodes and checksum, and the time on stderr.
 */
#include <stdint.h>
#include <stdio.h>
#include <stdlib.h>
#include <string.h>
#include <time.h>

enum { TASKS = 1024, ENTRIES = 15, TRIANGLE = 120 };

struct task {
    int stages;
    uint8_t applied[3];
    int32_t triangle[TRIANGLE];
    int32_t target[ENTRIES];
    int32_t optimum[ENTRIES];
    int has_plan;
    uint8_t plan[ENTRIES];
};

struct answer {
    uint8_t sequence[ENTRIES];
    uint64_t cost;
    uint32_t count;
    int certified;
};

/* The search. */

static int permitted(unsigned from, unsigned to) {
    return to <= from + 1 && from <= to + 1;
}

/* What the entries before j leave of row j's target. */
static int64_t remainder_of(const struct task *t, const uint8_t *at, int j) {
    const int32_t *row = t->triangle + j * (j + 1) / 2;
    int64_t left = t->target[j];
    for (int k = 0; k < j; k++)
        left -= (int64_t)row[k] * ((int)at[k] - 1);
    return left;
}

static int64_t difference(const struct task *t, int64_t left, int j, int p) {
    return left - (int64_t)t->triangle[j * (j + 1) / 2 + j] * (p - 1);
}

static uint64_t cost_of(const struct task *t, const uint8_t *at, int n) {
    uint64_t cost = 0;
    for (int j = 0; j < n; j++) {
        int64_t d = difference(t, remainder_of(t, at, j), j, at[j]);
        cost += (uint64_t)(d * d);
    }
    return cost;
}

static void rounded_guess(const struct task *t, uint8_t *guess, int n) {
    for (int j = 0; j < n; j++) {
        unsigned from = j < 3 ? t->applied[j] : guess[j - 3];
        int64_t nearest = INT64_MAX;
        for (int p = 0; p < 3; p++) {
            int64_t gap = llabs((int64_t)t->optimum[j] - 4096 * (p - 1));
            if (permitted(from, p) && gap < nearest) {
                nearest = gap;
                guess[j] = p;
            }
        }
    }
}

/* The start: the plan moved on one stage where that is permitted and cheaper, otherwise the rounded guess. */
static uint64_t start(const struct task *t, uint8_t *best, int n) {
    rounded_guess(t, best, n);
    uint64_t cost = cost_of(t, best, n);
    if (!t->has_plan)
        return cost;
    uint8_t moved[ENTRIES] = {0};
    for (int j = 0; j < n; j++) {
        moved[j] = j + 3 < n ? t->plan[j + 3] : t->plan[j];
        unsigned from = j < 3 ? t->applied[j] : moved[j - 3];
        if (moved[j] > 2 || !permitted(from, moved[j]))
            return cost;
    }
    uint64_t moved_cost = cost_of(t, moved, n);
    if (moved_cost >= cost)
        return cost;
    memcpy(best, moved, ENTRIES);
    return moved_cost;
}

static void decode(const struct task *t, uint32_t limit, struct answer *answer) {
    const int n = 3 * t->stages;
    uint8_t at[ENTRIES] = {0}, last[ENTRIES];
    uint64_t costs[ENTRIES];
    int64_t left[ENTRIES];
    uint32_t count = 0;
    memset(answer->sequence, 0, ENTRIES);
    uint64_t best = start(t, answer->sequence, n);

    int j = 0;
    unsigned from = t->applied[0];
    at[0] = from > 0 ? from - 1 : 0;
    last[0] = from < 2 ? from + 1 : 2;
    costs[0] = 0;
    left[0] = t->target[0];
    for (;;) {
        while (at[j] > last[j]) {
            if (j == 0) {
                answer->certified = 1;
                goto done;
            }
            j--;
            at[j]++;
        }
        if (count == limit) {
            answer->certified = 0;
            goto done;
        }
        count++;
        int64_t d = difference(t, left[j], j, at[j]);
        uint64_t cost = costs[j] + (uint64_t)(d * d);
        if (cost > best) {
            at[j]++;
        } else if (j + 1 == n) {
            memcpy(answer->sequence, at, ENTRIES);
            best = cost;
            at[j]++;
        } else {
            j++;
            from = j < 3 ? t->applied[j] : at[j - 3];
            at[j] = from > 0 ? from - 1 : 0;
            last[j] = from < 2 ? from + 1 : 2;
            costs[j] = cost;
            left[j] = remainder_of(t, at, j);
        }
    }
done:
    answer->cost = best;
    answer->count = count;
}

/* The stream of tasks. */

static uint64_t state;

static uint64_t below(uint64_t n) {
    state = state * 6364136223846793005u + 1442695040888963407u;
    return (state >> 33) % n;
}

static int32_t within(int32_t most) {
    return (int32_t)below(2 * (uint64_t)most + 1) - most;
}

static void draw(struct task *t, int stages) {
    uint8_t path[18], last[3] = {1, 1, 1};
    memset(t, 0, sizeof *t);
    t->stages = stages;
    for (int j = 0, i = 0; j < ENTRIES; j++)
        for (int k = 0; k <= j; k++, i++)
            t->triangle[i] = k == j ? within(256) + 2304 : k + 3 == j ? within(300) - 1700 : within(450);
    for (int j = 0; j < 18; j++) {
        uint8_t *p = &last[j % 3];
        switch (below(3)) {
        case 0: *p = *p > 0 ? *p - 1 : 0; break;
        case 1: break;
        default: *p = *p < 2 ? *p + 1 : 2; break;
        }
        path[j] = *p;
    }
    int32_t noise = below(5) == 0 ? 4000 : 1400;
    for (int j = 0; j < ENTRIES; j++)
        t->optimum[j] = (path[j + 3] - 1) * 4096 + within(noise);
    for (int j = 0; j < ENTRIES; j++) {
        int64_t sum = 2048;
        for (int k = 0; k <= j; k++)
            sum += (int64_t)t->triangle[j * (j + 1) / 2 + k] * t->optimum[k];
        t->target[j] = (int32_t)(sum >> 12);
    }
    memcpy(t->applied, path, 3);
    t->has_plan = 1;
    memcpy(t->plan, path, ENTRIES);
}

static uint64_t mixed(uint64_t sum, uint64_t x) {
    return (sum * 1099511628211u) ^ x;
}

static void run(int stages, unsigned times) {
    static struct task tasks[TASKS];
    struct timespec begun, ended;
    struct answer answer;
    uint64_t nodes = 0, sum = 0;
    state = (uint64_t)stages;
    for (int i = 0; i < TASKS; i++)
        draw(&tasks[i], stages);
    clock_gettime(CLOCK_MONOTONIC, &begun);
    for (unsigned r = 0; r < times; r++)
        for (int i = 0; i < TASKS; i++) {
            decode(&tasks[i], 1000000, &answer);
            nodes += answer.count;
            sum = mixed(mixed(sum, answer.count), answer.cost);
            for (int j = 0; j < ENTRIES; j++)
                sum = mixed(sum, answer.sequence[j]);
        }
    clock_gettime(CLOCK_MONOTONIC, &ended);
    long long spent = (ended.tv_sec - begun.tv_sec) * 1000000000LL + (ended.tv_nsec - begun.tv_nsec);
    printf("horizon %d: %llu nodes, checksum %llu\n", stages, (unsigned long long)nodes, (unsigned long long)sum);
    fprintf(stderr, "%d %llu %lld\n", stages, (unsigned long long)nodes, spent);
}

int main(int argc, char **argv) {
    unsigned times = argc > 1 ? (unsigned)strtoul(argv[1], NULL, 10) : 1;
    run(3, times);
    run(5, times);
    return 0;
}
