/* How much stack each entry point takes: it is called on a painted stack, and the lowest byte that changed is looked for. Each is called with a long payload
 * and with short ones, since bits are fetched another way near the end, and with remainders of 21 bits and more, the most at once; the greatest counts.
 *     cc -O1 -Iinclude oracle/stack.c target/archive/libbulmegart.a -pthread -o target/stack && target/stack               */
#include <pthread.h>
#include <stdio.h>
#include <stdlib.h>
#include <string.h>
#include "bulmegart.h"

enum { SIZE = 1 << 20, PAINT = 0xa5 };
static unsigned char *stack, *caller;
static uint8_t payload[4096], contexts[BULMEGART_CONTEXTS], statistics[BULMEGART_STATISTICS], list[8192];
static uint8_t bins[8192], scale_bins[BULMEGART_LONGEST_SCALE_LIST], quiet[BULMEGART_STATISTICS];
static size_t bins_length, scale_length;
static int32_t levels[1024], others[1024], small[16];
static uint8_t h264_contexts[BULMEGART_H264_CONTEXTS], h264_bins[BULMEGART_H264_LONGEST_LIST], frame[BULMEGART_PRESS_ROOM], text[BULMEGART_BOOK_BUFFER];
static uint8_t line[2 * BULMEGART_PRESS_ROOM + 2], values[BULMEGART_CONTEXTS];
static const uint8_t head[6] = {5, 1, 0, 8, 26, 1};
static size_t h264_length, line_length;
static uint32_t counts[BULMEGART_RECORDS], blocks[BULMEGART_PLACES], greatests[BULMEGART_PLACES], tallies[BULMEGART_NUMBERS];
static uint64_t sums[BULMEGART_RECORDS], places[BULMEGART_PLACES], tally[BULMEGART_BOOK_NUMBERS];
static uint32_t other_blocks[BULMEGART_PLACES], other_greatests[BULMEGART_PLACES], other_tallies[BULMEGART_NUMBERS];
static uint64_t other_places[BULMEGART_PLACES];
static bulmegart_record records[4];
static bulmegart_tray_found found[4];
static uint8_t answers[BULMEGART_BOOK_ANSWER * sizeof line];
static volatile uint32_t number;
static int which;
static size_t length;

static void call(void) {
    bulmegart_params p = {.log2 = 5, .depth = 8, .luma = 1, .hiding = 1, .persistent = 1};
    bulmegart_state s = bulmegart_start(payload, length).state;
    bulmegart_form form = {.log2 = 5, .bits = 15};
    bulmegart_whole whole = {0};
    bulmegart_totals totals = {.log2 = 5};
    switch (which) {
    case 0: number = bulmegart_start(payload, length).number; break;
    case 1: number = bulmegart_decode_bin(payload, length, s, 64).number; break;
    case 2: number = bulmegart_decode_bypass_bits(payload, length, s, 32).number; break;
    case 3: number = bulmegart_decode_terminate(payload, length, s).number; break;
    case 4: number = bulmegart_restart(payload, length, s).number; break;
    case 5: number = bulmegart_read_bits(payload, length, s, 32).number; break;
    case 6: number = bulmegart_init_contexts(contexts, statistics, payload, BULMEGART_CONTEXTS, 26); break;
    case 7: number = bulmegart_residual_coding(payload, length, s, contexts, statistics, p, levels, 1024).number; break;
    case 8: number = bulmegart_read_bins(list, length, statistics, p, levels, 1024).number; break;
    case 9:
        memset(levels, 0, sizeof levels);
        levels[1023] = levels[700] = levels[33] = 9;
        number = bulmegart_write_bins(p, statistics, levels, 1024, 0, 0, list, sizeof list).number;
        break;
    case 10: number = bulmegart_read_scale(payload, length, s, contexts, 1).number; break;
    case 11: number = bulmegart_read_scale_bins(list, 2, 1).number; break;
    case 12: number = bulmegart_write_scale_bins(1, -8, list, sizeof list).number; break;
    case 13: number = bulmegart_pack_bins(contexts, quiet, p, bins, bins_length, list, sizeof list).number; break;
    case 14: number = bulmegart_pack_scale(contexts, 1, scale_bins, scale_length, list, sizeof list).number; break;
    case 15: number = bulmegart_reached(payload, length, s, contexts, statistics, p, levels, 1024).past; break;
    case 16: number = bulmegart_read_tray(payload, length, s, contexts, statistics, records, 4, levels, 1024, found, 4).number; break;
    case 17: number = bulmegart_pack_tray(contexts, quiet, records, 1, bins, bins_length, list, sizeof list).number; break;
    case 18: number = bulmegart_read_kept(payload, length, s, contexts, statistics, p, levels, 1024, counts, sums, form, whole).block.number; break;
    case 19: number = bulmegart_set_level(levels, 1024, counts, sums, form, whole, 700, 9).number; break;
    case 20: number = bulmegart_copy_in(levels, 1024, counts, sums, form, whole, form, others, 1024).number; break;
    case 21: number = bulmegart_add_block(blocks, places, greatests, totals, 5, levels, 1024, 0).number; break;
    case 22: number = bulmegart_merge_figures(blocks, places, greatests, tallies, totals, other_blocks, other_places, other_greatests, other_tallies, totals).number; break;
    case 23: number = bulmegart_h264_residual_block(payload, length, s, h264_contexts, small, 16).number; break;
    case 24: number = bulmegart_h264_read_bins(h264_bins, h264_length, small, 16).number; break;
    case 25: number = bulmegart_h264_write_bins(small, 16, list, sizeof list).number; break;
    case 26: number = bulmegart_h264_pack_bins(h264_contexts, h264_bins, h264_length, list, sizeof list).number; break;
    case 27: number = bulmegart_press(head, 6, values, sizeof values, levels, 1024, frame, sizeof frame).number; break;
    case 28: number = bulmegart_book_feed(line, line_length, text, sizeof text, 1, 0, tally, BULMEGART_BOOK_NUMBERS, answers, sizeof answers).number; break;
    default: break;
    }
}

static void *run(void *unused) {
    unsigned char here;
    caller = &here;
    call();
    return unused;
}

static size_t depth_at(int w, size_t l) {
    pthread_t t;
    pthread_attr_t a;
    which = w;
    length = l;
    memset(stack, PAINT, SIZE);
    memset(contexts, 64, sizeof contexts);
    memset(statistics, 84, sizeof statistics);
    pthread_attr_init(&a);
    if (pthread_attr_setstack(&a, stack, SIZE) || pthread_create(&t, &a, run, NULL)) exit(1);
    pthread_join(t, NULL);
    size_t i = 0;
    while (stack[i] == PAINT) i++;
    return (size_t)(caller - (stack + i));
}

static size_t depth(int w) {
    size_t most = depth_at(w, sizeof payload);
    for (size_t l = 2; l < 40; l++) {
        size_t d = depth_at(w, l);
        if (most < d) most = d;
    }
    return most;
}

int main(void) {
    const char *names[] = {"start", "decision", "bypass", "terminate", "restart", "raw bits", "init contexts", "read block", "read bins", "write bins",
                           "read scale", "read scale bins", "write scale", "pack bins", "pack scale", "reached", "read tray", "pack tray", "read kept", "set level", "copy in",
                           "add block", "merge figures", "h264 read block", "h264 read bins", "h264 write bins", "h264 pack bins", "press", "book feed"};
    const int count = sizeof names / sizeof *names;
    stack = aligned_alloc(4096, SIZE);
    for (size_t i = 0; i < sizeof payload; i++) payload[i] = (uint8_t)(i * 37 + (i >> 3) * 11);
    bulmegart_params p = {.log2 = 5, .depth = 8, .luma = 1, .hiding = 1, .persistent = 1};
    uint8_t moved[BULMEGART_STATISTICS] = {0};
    levels[1023] = levels[700] = levels[33] = 9;
    bins_length = bulmegart_write_bins(p, moved, levels, 1024, 0, 0, bins, sizeof bins).length;
    scale_length = bulmegart_write_scale_bins(1, -8, scale_bins, sizeof scale_bins).length;
    for (int i = 0; i < 4; i++) records[i] = (bulmegart_record){.log2 = i ? 2 : 5, .depth = 8, .luma = 1, .hiding = 1, .persistent = 1};
    memset(h264_contexts, 64, sizeof h264_contexts);
    for (int i = 0; i < 16; i++) small[i] = i % 2 ? -32768 : 100 * i;
    h264_length = bulmegart_h264_write_bins(small, 16, h264_bins, sizeof h264_bins).length;
    memset(values, 154, sizeof values);
    size_t frame_length = bulmegart_press(head, 6, values, sizeof values, levels, 1024, frame, sizeof frame).length;
    for (size_t i = 0; i < frame_length; i++) sprintf((char *)line + 2 * i, "%02x", frame[i]);
    line_length = 2 * frame_length + 1;
    line[line_length - 1] = '\n';
    for (int w = 0; w < count; w++) printf("%-15s %zu bytes\n", names[w], depth(w));
    printf("%-15s %zu bytes (the caller alone)\n", "none", depth(count));
    return 0;
}
