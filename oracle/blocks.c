// Nanoseconds a block of bulmegart_residual_coding on the accepted blocks of a file of vectors, by size and count of levels: the best of many rounds of
// processor time. For two archives of which one holds a change that is tried: build it against each, and run the two in turn.
//   cc -O2 -I include oracle/blocks.c -L FOLDER -lbulmegart -o blocks && ./blocks VECTORS/hevc.txt 60
#include "bulmegart.h"
#include <stdio.h>
#include <stdlib.h>
#include <string.h>
#include <time.h>

enum { MOST = 4000, FIELDS = 40, CLASSES = 7 };

typedef struct {
    bulmegart_params params;
    bulmegart_state state;
    uint8_t *payload;
    size_t length;
    uint8_t contexts[BULMEGART_CONTEXTS], statistics[BULMEGART_STATISTICS];
    int levels;
} block;

static block blocks[MOST];
static int count;

static int digit(char c) { return c <= '9' ? c - '0' : c - 'a' + 10; }

static size_t bytes_of(const char *hex, uint8_t *to) {
    size_t n = 0;
    if (*hex == '-')
        return 0;
    for (; hex[0] && hex[1]; hex += 2)
        to[n++] = (uint8_t)(digit(hex[0]) * 16 + digit(hex[1]));
    return n;
}

// A line of the form that FORMAT.md of the vectors has for a block.
static void take(char *line) {
    char *field[FIELDS];
    int k = 0, a[14];
    for (char *t = strtok(line, " \n"); t && k < FIELDS; t = strtok(NULL, " \n"))
        field[k++] = t;
    if (k < 30 || atoi(field[23]) != 0 || count == MOST)
        return;
    block *b = &blocks[count++];
    for (int i = 0; i < 14; i++)
        a[i] = atoi(field[2 + i]);
    b->params = (bulmegart_params){.log2 = a[0], .luma = a[1], .scan = a[2], .hiding = a[3], .skip_allowed = a[4], .lossless = a[5], .persistent = a[6],
        .skip_context = a[7], .explicit_rdpcm = a[8], .implicit_rdpcm = a[9], .inter = a[10], .aligning = a[11], .extended = a[12], .depth = a[13]};
    b->state = (bulmegart_state){.range = atoi(field[16]), .offset = atoi(field[17]), .position = atoi(field[18])};
    b->payload = malloc(strlen(field[19]));
    b->length = bytes_of(field[19], b->payload);
    bytes_of(field[20], b->contexts);
    bytes_of(field[21], b->statistics);
    b->levels = 1;
    for (const char *t = field[29]; *t; t++)
        b->levels += *t == ',';
}

static int class_of(const block *b) {
    if (b->params.log2 > 2)
        return (int)b->params.log2;
    return b->levels <= 2 ? 0 : b->levels <= 6 ? 1 : 2;
}

int main(int words, char **word) {
    static const char *name[CLASSES] = {"4x4, 1 or 2 levels", "4x4, 3 to 6", "4x4, 7 and more", "8x8", "16x16", "32x32", "all"};
    static char line[200000];
    static int32_t levels[1024];
    int rounds = words > 2 ? atoi(word[2]) : 40;
    FILE *file = words > 1 ? fopen(word[1], "r") : NULL;
    if (!file) {
        fprintf(stderr, "blocks VECTORS/hevc.txt [ROUNDS]\n");
        return 1;
    }
    while (fgets(line, sizeof line, file))
        if (line[0] == 'B')
            take(line);
    for (int class = 0; class < CLASSES; class++) {
        int times = class == 6 ? 6 : class >= 4 ? 20 : 60, some = 0;
        double best = 1e18;
        unsigned long sum = 0;
        for (int i = 0; i < count; i++)
            some += class == 6 || class_of(&blocks[i]) == class;
        for (int round = 0; some && round < rounds; round++) {
            struct timespec from, to;
            clock_gettime(CLOCK_THREAD_CPUTIME_ID, &from);
            for (int t = 0; t < times; t++)
                for (int i = 0; i < count; i++) {
                    const block *b = &blocks[i];
                    if (class != 6 && class_of(b) != class)
                        continue;
                    uint8_t contexts[BULMEGART_CONTEXTS], statistics[BULMEGART_STATISTICS];
                    memcpy(contexts, b->contexts, sizeof contexts);
                    memcpy(statistics, b->statistics, sizeof statistics);
                    bulmegart_block_answer r = bulmegart_residual_coding(b->payload, b->length, b->state, contexts, statistics, b->params, levels, 1024);
                    sum += r.number + r.found.greatest + r.state.position + contexts[3];
                }
            clock_gettime(CLOCK_THREAD_CPUTIME_ID, &to);
            double took = ((to.tv_sec - from.tv_sec) * 1e9 + (to.tv_nsec - from.tv_nsec)) / times / some;
            if (took < best)
                best = took;
        }
        printf("%-18s %5d blocks %9.1f ns  (%lu)\n", name[class], some, best, sum);
    }
    return 0;
}
