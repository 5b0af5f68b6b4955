/* Nanoseconds of a single call: a decision, a bypass bin, and a function with the same arguments and answer as the second that only copies the state.
 *     cc -O2 -Iinclude oracle/calls.c target/archive/libbulmegart.a -o target/calls && target/calls          */
#include <stdint.h>
#include <stdio.h>
#include <string.h>
#include <time.h>
#include "bulmegart.h"

enum { CALLS = 20000, ROUNDS = 200 };
static uint8_t payload[65536];

static double now(void) {
    struct timespec t;
    clock_gettime(CLOCK_THREAD_CPUTIME_ID, &t);
    return t.tv_sec * 1e9 + t.tv_nsec;
}

static bulmegart_bins_answer copies(const uint8_t *bytes, size_t length, bulmegart_state s) {
    bulmegart_bins_answer a;
    a.number = length < 2;
    a.value = bytes[s.position >> 3 & 65535] & 1;
    a.state.range = s.range;
    a.state.offset = s.offset;
    a.state.position = s.position + 1;
    a.state.ended = s.ended;
    a.state.past = s.past;
    return a;
}

/* called as the archive's functions are, with nothing known of it */
static bulmegart_bins_answer (*volatile copier)(const uint8_t *, size_t, bulmegart_state) = copies;

static uint32_t run(int which, bulmegart_state s, uint8_t *contexts) {
    uint32_t sum = 0;
    for (int i = 0; i < CALLS; i++) {
        if (which == 0) {
            bulmegart_decision_answer d = bulmegart_decode_bin(payload, sizeof payload, s, contexts[i & 15]);
            contexts[i & 15] = d.context;
            s = d.state;
            sum += d.bin + d.number;
        } else {
            bulmegart_bins_answer d = which == 1 ? bulmegart_decode_bypass(payload, sizeof payload, s) : copier(payload, sizeof payload, s);
            s = d.state;
            sum += d.value + d.number;
        }
    }
    return sum;
}

int main(void) {
    static const char *names[] = {"decode_bin", "decode_bypass", "a copy of the state"};
    uint32_t seed = 12345;
    for (size_t i = 0; i < sizeof payload; i++) {
        seed = seed * 1664525u + 1013904223u;
        payload[i] = seed >> 24;
    }
    for (int which = 0; which < 3; which++) {
        double best = 1e18;
        uint32_t sum = 0;
        for (int round = 0; round < ROUNDS; round++) {
            bulmegart_state s = bulmegart_start(payload, sizeof payload).state;
            uint8_t contexts[16];
            for (int i = 0; i < 16; i++) contexts[i] = (uint8_t)(i * 5 + 3);
            double begun = now();
            sum += run(which, s, contexts);
            double each = (now() - begun) / CALLS;
            if (each < best) best = each;
        }
        printf("%-20s %6.2f ns (%u)\n", names[which], best, sum);
    }
    return 0;
}
