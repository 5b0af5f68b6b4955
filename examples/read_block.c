/* Reads one 4x4 luma block of two bytes, document 01's case FE 80: level -1 at (0,0). */
#include <stdio.h>
#include <string.h>
#include "bulmegart.h"

static int refused(uint32_t number) {
    printf("refused, number %u: %s\n", number, bulmegart_reason(number));
    return 1;
}

int main(void) {
    const uint8_t payload[] = {0xfe, 0x80};
    uint8_t values[BULMEGART_CONTEXTS], contexts[BULMEGART_CONTEXTS], statistics[BULMEGART_STATISTICS];
    int32_t levels[16];
    if (bulmegart_version() != BULMEGART_VERSION) {
        puts("the archive is of another version than the header");
        return 1;
    }
    memset(values, 154, sizeof values);
    uint32_t number = bulmegart_init_contexts(contexts, statistics, values, sizeof values, 26);
    if (number != BULMEGART_ACCEPTED) return refused(number);
    bulmegart_state_answer start = bulmegart_start(payload, sizeof payload);
    if (start.number != BULMEGART_ACCEPTED) return refused(start.number);
    bulmegart_params params = {.log2 = 2, .scan = 0, .depth = 8, .luma = 1};
    bulmegart_block_answer block =
        bulmegart_residual_coding(payload, sizeof payload, start.state, contexts, statistics, params, levels, 16);
    if (block.number != BULMEGART_ACCEPTED) return refused(block.number);
    printf("greatest magnitude %u, column extent %u, row extent %u, bits drawn %zu, bits past the end %u\n", block.found.greatest,
           block.found.column, block.found.row, block.state.position, block.state.past);
    for (int i = 0; i < 16; i++) printf("%4d%s", levels[i], i % 4 == 3 ? "\n" : "");
    return levels[0] == -1 && block.state.position == 13 && block.state.past == 0 ? 0 : 1;
}
