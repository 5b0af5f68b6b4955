/* Reads one scale of cross-component prediction out of two bytes, 0B F8: -8 for chroma component 1. Then writes it as bins and reads those. */
#include <stdio.h>
#include <string.h>
#include "bulmegart.h"

static int refused(uint32_t number) {
    printf("refused, number %u: %s\n", number, bulmegart_reason(number));
    return 1;
}

int main(void) {
    const uint8_t payload[] = {0x0b, 0xf8};
    const uint32_t component = 1;
    uint8_t contexts[BULMEGART_CONTEXTS], list[BULMEGART_LONGEST_SCALE_LIST];
    memset(contexts, bulmegart_init(154, 26), sizeof contexts);
    bulmegart_state_answer start = bulmegart_start(payload, sizeof payload);
    if (start.number != BULMEGART_ACCEPTED) return refused(start.number);
    bulmegart_scale_answer read = bulmegart_read_scale(payload, sizeof payload, start.state, contexts, component);
    if (read.number != BULMEGART_ACCEPTED) return refused(read.number);
    bulmegart_write_answer written = bulmegart_write_scale_bins(component, read.scale, list, sizeof list);
    if (written.number != BULMEGART_ACCEPTED) return refused(written.number);
    printf("scale %d, bits drawn %zu, list of %zu bytes:", read.scale, read.state.position, written.length);
    for (size_t i = 0; i + 1 < written.length; i += 2) printf(" %u", (unsigned)(list[i] + 256 * list[i + 1]));
    printf("\n");
    bulmegart_scale_list_answer again = bulmegart_read_scale_bins(list, written.length, component);
    if (again.number != BULMEGART_ACCEPTED) return refused(again.number);
    return read.scale == -8 && again.scale == -8 && written.length == 10 ? 0 : 1;
}
