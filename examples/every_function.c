/* Calls every function of the header once at least, with what the header says of each argument, and holds each answer to what it says of it. A drawing of one
 * block goes through lists, payloads, a tray, the book, a kept block and figures. */
#include <stdio.h>
#include <string.h>
#include "bulmegart.h"

static int calls, wrong;

static void hold(int holds, int line) {
    calls++;
    if (!holds) {
        printf("every_function.c, line %d: not as the header says\n", line);
        wrong++;
    }
}
#define HOLDS(what) hold(what, __LINE__)

static const int32_t drawn[16] = {2, 0, 0, 0, 0, -7};
static uint8_t values[BULMEGART_CONTEXTS], contexts[BULMEGART_CONTEXTS], moved[BULMEGART_CONTEXTS], zeros[BULMEGART_STATISTICS];
static int32_t levels[32];
static uint8_t lists[2 * BULMEGART_LONGEST_LIST_4X4], payload[2 * BULMEGART_LONGEST_PAYLOAD_4X4];

/* The first `blocks` blocks of the levels are the one drawn. */
static int as_drawn(int blocks) {
    int same = 1;
    for (int i = 0; i < blocks; i++) same &= memcmp(levels + 16 * i, drawn, sizeof drawn) == 0;
    memset(levels, 0, sizeof levels);
    memcpy(moved, contexts, sizeof moved);
    return same;
}

int main(void) {
    HOLDS(bulmegart_version() == BULMEGART_VERSION);

    /* contexts */
    memset(values, 154, sizeof values);
    HOLDS(bulmegart_init_contexts(contexts, zeros, values, sizeof values, 26) == BULMEGART_ACCEPTED);
    HOLDS(bulmegart_init_contexts(contexts, zeros, NULL, 0, 26) == BULMEGART_BAD_PARAMETER);
    HOLDS(contexts[BULMEGART_SCALE_SIGN] == bulmegart_init(154, 26));
    memcpy(moved, contexts, sizeof moved);

    /* a block: as a list, as a payload, and back */
    bulmegart_params params = {.log2 = 2, .scan = 0, .depth = 8, .luma = 1};
    bulmegart_write_answer list = bulmegart_write_bins(params, zeros, drawn, 16, 0, BULMEGART_RDPCM_NONE, lists, sizeof lists);
    HOLDS(list.number == BULMEGART_ACCEPTED && list.length % 2 == 0);
    HOLDS(bulmegart_write_bins(params, zeros, drawn, 16, 1, BULMEGART_RDPCM_NONE, lists, sizeof lists).number == BULMEGART_NOT_CODED);
    HOLDS(bulmegart_write_bins(params, zeros, drawn, 16, 0, BULMEGART_RDPCM_NONE, NULL, 0).number == BULMEGART_SHORT_ROOM);
    bulmegart_list_answer bins = bulmegart_read_bins(lists, list.length, zeros, params, levels, 16);
    HOLDS(bins.number == BULMEGART_ACCEPTED && bins.found.greatest == 7 && bins.found.column == 1 && bins.found.row == 1 && as_drawn(1));
    bulmegart_write_answer packed = bulmegart_pack_bins(contexts, zeros, params, lists, list.length, payload, sizeof payload);
    HOLDS(packed.number == BULMEGART_ACCEPTED && packed.length <= BULMEGART_LONGEST_PAYLOAD_4X4);
    bulmegart_state start = bulmegart_start(payload, packed.length).state;
    bulmegart_reached_answer reached = bulmegart_reached(payload, packed.length, start, contexts, zeros, params, levels, 16);
    bulmegart_block_answer block = bulmegart_residual_coding(payload, packed.length, start, moved, zeros, params, levels, 16);
    HOLDS(block.number == BULMEGART_ACCEPTED && block.found.greatest == 7 && block.state.past == 0 && as_drawn(1));
    HOLDS(reached.state.position == block.state.position && reached.state.offset == block.state.offset && reached.past == 0);

    /* the engine's own steps */
    bulmegart_bins_answer ended = bulmegart_decode_terminate(payload, packed.length, block.state);
    HOLDS(ended.value == 1 && ended.state.ended == 1 && (ended.state.position + 7) / 8 == packed.length);
    HOLDS(bulmegart_decode_bypass(payload, packed.length, ended.state).number == BULMEGART_ENDED);
    bulmegart_state_answer whole_bytes = bulmegart_byte_align(payload, packed.length, ended.state);
    HOLDS(whole_bytes.state.position == 8 * packed.length);
    bulmegart_rest_answer rest = bulmegart_rest(payload, packed.length, ended.state);
    HOLDS(rest.first == packed.length && rest.length == 0);
    HOLDS(bulmegart_restart(payload, packed.length, ended.state).number == BULMEGART_BAD_START);
    bulmegart_decision_answer bin = bulmegart_decode_bin(payload, packed.length, start, contexts[BULMEGART_LAST_X_PREFIX]);
    HOLDS(bin.number == BULMEGART_ACCEPTED && bin.bin == 1 && bin.context != contexts[BULMEGART_LAST_X_PREFIX]);
    HOLDS(bulmegart_decode_bypass_bits(payload, packed.length, start, 33).number == BULMEGART_BAD_PARAMETER);
    HOLDS(bulmegart_decode_bypass_bits(payload, packed.length, start, 4).state.position == 13);
    HOLDS(bulmegart_read_bits(payload, packed.length, start, 7).state.position == 16);
    bulmegart_state_answer aligned = bulmegart_align_bypass(payload, packed.length, start);
    HOLDS(aligned.number == (start.offset < 256 ? BULMEGART_ACCEPTED : BULMEGART_BAD_ALIGNMENT));

    /* plain cameras */
    bulmegart_params_answer plain = bulmegart_plain_params(2, 0, 1, 0, 0, 0, 0);
    HOLDS(plain.number == BULMEGART_ACCEPTED && plain.params.depth == 8);
    HOLDS(bulmegart_residual_coding_plain(payload, packed.length, start, moved, zeros, plain.params, levels, 16).found.greatest == 7 && as_drawn(1));
    HOLDS(bulmegart_read_bins_plain(lists, list.length, zeros, plain.params, levels, 16).found.greatest == 7 && as_drawn(1));
    HOLDS(bulmegart_write_bins_plain(plain.params, zeros, drawn, 16, 0, BULMEGART_RDPCM_NONE, lists, sizeof lists).length == list.length);
    params.depth = 9;
    HOLDS(bulmegart_read_bins_plain(lists, list.length, zeros, params, levels, 16).number == BULMEGART_NOT_PLAIN);
    params.depth = 8;

    /* a tray of the block twice */
    const bulmegart_record records[2] = {{.log2 = 2, .depth = 8, .luma = 1}, {.log2 = 2, .depth = 8, .luma = 1}};
    bulmegart_tray_found found[2];
    memcpy(lists + list.length, lists, list.length);
    bulmegart_pack_tray_answer lists_packed = bulmegart_pack_tray(contexts, zeros, records, 2, lists, 2 * list.length, payload, sizeof payload);
    HOLDS(lists_packed.number == BULMEGART_ACCEPTED && lists_packed.done == 2);
    start = bulmegart_start(payload, lists_packed.length).state;
    bulmegart_tray_answer tray = bulmegart_read_tray(payload, lists_packed.length, start, moved, zeros, records, 2, levels, 32, found, 2);
    HOLDS(tray.number == BULMEGART_ACCEPTED && tray.done == 2 && found[1].greatest == 7 && found[1].row == 1 && as_drawn(2));

    /* a scale */
    uint8_t scale_list[BULMEGART_LONGEST_SCALE_LIST], scale_payload[(BULMEGART_LONGEST_SCALE_LIST / 2 * 7 + 16) / 8];
    bulmegart_write_answer scale = bulmegart_write_scale_bins(1, -8, scale_list, sizeof scale_list);
    HOLDS(scale.length == BULMEGART_LONGEST_SCALE_LIST);
    HOLDS(bulmegart_read_scale_bins(scale_list, scale.length, 1).scale == -8);
    scale = bulmegart_pack_scale(contexts, 1, scale_list, scale.length, scale_payload, sizeof scale_payload);
    HOLDS(scale.number == BULMEGART_ACCEPTED);
    start = bulmegart_start(scale_payload, scale.length).state;
    HOLDS(bulmegart_read_scale(scale_payload, scale.length, start, moved, 1).scale == -8);

    /* a drawing pressed, and the book of its line, in two pieces; a second line has no end */
    const uint8_t head[6] = {2, 1, 0, 8, 26, 0};
    static uint8_t frame[BULMEGART_PRESS_ROOM], buffer[BULMEGART_BOOK_BUFFER], answers[BULMEGART_BOOK_ANSWER * 1024];
    static char book[1024];
    uint64_t tally[BULMEGART_BOOK_NUMBERS] = {0};
    bulmegart_press_answer pressed = bulmegart_press(head, sizeof head, values, sizeof values, drawn, 16, frame, sizeof frame);
    HOLDS(pressed.number == BULMEGART_ACCEPTED && pressed.length == 138 + packed.length);
    for (size_t i = 0; i < pressed.length; i++) sprintf(book + 2 * i, "%02x", frame[i]);
    strcat(book, "\n02");
    size_t length = strlen(book);
    bulmegart_book_answer fed = bulmegart_book_feed((const uint8_t *)book, 9, buffer, sizeof buffer, 1, 0, tally, BULMEGART_BOOK_NUMBERS, answers, sizeof answers);
    HOLDS(fed.number == BULMEGART_ACCEPTED && fed.line == 1 && fed.held == 9 && fed.written == 0);
    fed = bulmegart_book_feed((const uint8_t *)book + 9, length - 9, buffer, sizeof buffer, fed.line, fed.held, tally, BULMEGART_BOOK_NUMBERS, answers, sizeof answers);
    HOLDS(fed.line == 2 && fed.held == 2 && fed.written == 9 && memcmp(answers, "1 ok 7 0\n", 9) == 0);
    fed = bulmegart_book_finish(buffer, sizeof buffer, fed.line, fed.held, tally, BULMEGART_BOOK_NUMBERS, answers, sizeof answers);
    HOLDS(fed.written == 8 && memcmp(answers, "2 no 20\n", 8) == 0 && tally[0] == 1 && tally[BULMEGART_BAD_LINE] == 1);

    /* a kept block */
    static uint32_t counts[BULMEGART_RECORDS];
    static uint64_t sums[BULMEGART_RECORDS];
    const bulmegart_form form = {.log2 = 2, .bits = 15};
    bulmegart_whole whole = {.count = 5};
    whole = bulmegart_clear_kept(levels, 16, counts, sums, form, whole).whole;
    HOLDS(whole.count == 0 && whole.map == 0);
    HOLDS(bulmegart_set_level(levels, 16, counts, sums, form, whole, 3, 32768).number == BULMEGART_LEVEL_OUT_OF_RANGE);
    whole = bulmegart_set_level(levels, 16, counts, sums, form, whole, 3, -4).whole;
    HOLDS(whole.count == 1 && whole.sum == 4 && counts[0] == 1 && sums[0] == 4);
    whole = bulmegart_copy_in(levels, 16, counts, sums, form, whole, form, drawn, 16).whole;
    HOLDS(whole.count == 2 && whole.sum == 9 && whole.map == 1);
    HOLDS(bulmegart_recount(levels, 16, counts, sums, form, whole).whole.sum == 9 && as_drawn(1));
    start = bulmegart_start(payload, lists_packed.length).state;
    bulmegart_kept_block_answer kept = bulmegart_read_kept(payload, lists_packed.length, start, moved, zeros, params, levels, 16, counts, sums, form, whole);
    HOLDS(kept.block.number == BULMEGART_ACCEPTED && kept.whole.sum == 9 && as_drawn(1));
    bulmegart_kept_list_answer kept_bins = bulmegart_read_kept_bins(lists, list.length, zeros, params, levels, 16, counts, sums, form, whole);
    HOLDS(kept_bins.list.found.greatest == 7 && kept_bins.whole.count == 2 && as_drawn(1));

    /* figures of two benches */
    static uint32_t blocks[2][BULMEGART_PLACES], greatests[2][BULMEGART_PLACES], tallies[2][BULMEGART_NUMBERS];
    static uint64_t place_sums[2][BULMEGART_PLACES];
    bulmegart_totals totals[2] = {{0}, {0}};
    for (int i = 0; i < 2; i++) {
        totals[i] = bulmegart_begin_figures(blocks[i], place_sums[i], greatests[i], tallies[i], totals[i], 2).totals;
        totals[i] = bulmegart_add_block(blocks[i], place_sums[i], greatests[i], totals[i], 2, drawn, 16, 3).totals;
        totals[i] = bulmegart_add_refusal(tallies[i], totals[i], BULMEGART_HIDDEN_SIGN).totals;
    }
    HOLDS(bulmegart_add_refusal(tallies[0], totals[0], 25).number == BULMEGART_BAD_PARAMETER);
    bulmegart_added merged = bulmegart_merge_figures(blocks[0], place_sums[0], greatests[0], tallies[0], totals[0], blocks[1], place_sums[1], greatests[1], tallies[1], totals[1]);
    HOLDS(merged.number == BULMEGART_ACCEPTED && merged.totals.accepted == 2 && merged.totals.past == 6);
    bulmegart_place_figures place = bulmegart_at_place(blocks[0], place_sums[0], greatests[0], merged.totals, 5);
    HOLDS(place.blocks == 2 && place.greatest == 7 && place.sum == 14);
    HOLDS(bulmegart_tally_of(tallies[0], merged.totals, BULMEGART_HIDDEN_SIGN).count == 2);

    /* H.264 */
    int32_t pairs[2 * BULMEGART_H264_CONTEXTS];
    uint8_t h264[BULMEGART_H264_CONTEXTS];
    static uint8_t h264_list[BULMEGART_H264_LONGEST_LIST];
    for (int i = 0; i < 2 * BULMEGART_H264_CONTEXTS; i++) pairs[i] = i % 2 ? 64 : 0;
    HOLDS(bulmegart_h264_init_pairs(h264, pairs, 2 * BULMEGART_H264_CONTEXTS, 26) == BULMEGART_ACCEPTED);
    list = bulmegart_h264_write_bins(drawn, BULMEGART_H264_PLACES, h264_list, sizeof h264_list);
    HOLDS(list.number == BULMEGART_ACCEPTED);
    HOLDS(bulmegart_h264_read_bins(h264_list, list.length, levels, 16).greatest == 7 && as_drawn(1));
    packed = bulmegart_h264_pack_bins(h264, h264_list, list.length, payload, sizeof payload);
    HOLDS(packed.number == BULMEGART_ACCEPTED);
    start = bulmegart_start(payload, packed.length).state;
    bulmegart_h264_block_answer old = bulmegart_h264_residual_block(payload, packed.length, start, h264, levels, 16);
    HOLDS(old.number == BULMEGART_ACCEPTED && old.greatest == 7 && old.state.past == 0 && as_drawn(1));

    printf("%d answers, %d not as the header says\n", calls, wrong);
    return wrong != 0;
}
