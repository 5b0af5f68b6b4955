/* Bulmegart for C: the arithmetic engine of H.265 (CABAC), the two readers of a residual block, the writer of bins, the scale of
 * cross-component prediction, and H.264's 4x4 block.
 *
 * Link target/archive/libbulmegart.a, which `tools/archive` proves and writes (for Linux on any x86-64, or on Arm: tools/native_archive); examples/read_block.c reads
 * a block, examples/every_function.c calls each function. "Document 01" and "request (i)" and so on are the customer's papers: what they ask for is said
 * here. Nothing is allocated, nothing is kept between calls, so any thread may call any of them. At most 5 KB of stack are taken where nothing else is said.
 *
 * A function, a field or a number has here the name that it has in Rattle, in bindings/rust and, where it stands there, in the Rust
 * (docs/ARCHITECTURE.md has the table).
 *
 * Memory. Every function takes any bytes, any state and any numbers, and ends. A caller can break memory only by lying about a length: a
 * pointer must be to as many elements as its length says (contexts: BULMEGART_CONTEXTS bytes, statistics: BULMEGART_STATISTICS), and a buffer that
 * a function writes must not overlap another that the same call is lent. With length 0 a pointer may be NULL: nothing is read or written
 * through it, and the call is answered as any that is lent too little. Contexts and statistics have no length, so they may not be NULL.
 *
 * A payload is a slice's data with its emulation prevention bytes taken out. Bits come high bit first; a bit past the end is 1, leaves the
 * position at the end, and is counted: `past` of a state is how many such bits were supplied since bulmegart_start, stopping at 65,535. 0 means
 * that none was: what was read was in the file.
 *
 * A list of bins has two bytes for each entry, low byte first: 2·context number + bin, BULMEGART_BYPASS_ENTRY + bin, or
 * BULMEGART_ALIGNMENT_ENTRY where the range is aligned. Lengths and rooms count bytes; a last byte that is half an entry is 13.
 */
#ifndef BULMEGART_H
#define BULMEGART_H

#include <stddef.h>
#include <stdint.h>

#ifdef __cplusplus
extern "C" {
#endif

/* The version of this header. Until the first part is 1, a name, a struct or a number that means another thing than before moves the second. */
#define BULMEGART_VERSION_MAJOR 0
#define BULMEGART_VERSION_MINOR 3
#define BULMEGART_VERSION_PATCH 0
#define BULMEGART_VERSION (65536 * BULMEGART_VERSION_MAJOR + 256 * BULMEGART_VERSION_MINOR + BULMEGART_VERSION_PATCH)

/* The archive's version. Where it is not BULMEGART_VERSION, header and archive were not made together: call nothing else. */
uint32_t bulmegart_version(void);

/* ---- numbers */

/* An answer's `number` is document 01's. Where several apply: 1, 2, 4, 3, 6, 5, then the order of reading; each function has its own below, in the order in
 * which they are looked for. After any refusal the state, contexts and statistics are those handed in. */
enum {
    BULMEGART_ACCEPTED = 0,
    BULMEGART_SHORT_PAYLOAD = 1,
    BULMEGART_LONG_PAYLOAD = 2,
    BULMEGART_IMPOSSIBLE_STATE = 3, /* a context byte above 127; a statistic above 84; a position beyond 8 times the payload length; a total
                                       past the end above 65,535; or, unless ended, not 256 <= range <= 510 with offset < range */
    BULMEGART_BAD_PARAMETER = 4,    /* also a flag, a byte that should be 0 or 1, above 1 */
    BULMEGART_BAD_START = 5,
    BULMEGART_ENDED = 6,
    BULMEGART_BAD_ALIGNMENT = 7,
    BULMEGART_LEVEL_OUT_OF_RANGE = 8, /* levels are -2^T to 2^T - 1: T is 15; with `extended` depth + 6, if that is more */
    BULMEGART_ALL_ZERO = 9,
    BULMEGART_NOT_CODED = 10, /* skip is coded where skip_allowed is 1 and lossless 0; RDPCM where explicit_rdpcm and inter are 1, and skip or lossless */
    BULMEGART_HIDDEN_SIGN = 11,
    BULMEGART_SHORT_ROOM = 12,
    BULMEGART_BAD_LIST = 13,
    BULMEGART_BAD_LINE = 20,     /* the book alone: also an odd count of digits, and no line feed at the end */
    BULMEGART_LINE_LENGTH = 21,  /* the book alone */
    BULMEGART_LONG_LINE = 22,    /* the book and the press alone: a payload over 4,096 bytes */
    BULMEGART_FIGURES_FULL = 23, /* the figures alone */
    BULMEGART_NOT_PLAIN = 24     /* the plain functions alone */
};

/* A number in words. */
static inline const char *bulmegart_reason(uint32_t number) {
    switch (number) {
    case BULMEGART_ACCEPTED: return "accepted";
    case BULMEGART_SHORT_PAYLOAD: return "payload under 2 bytes";
    case BULMEGART_LONG_PAYLOAD: return "payload over 16,777,216 bytes";
    case BULMEGART_IMPOSSIBLE_STATE: return "impossible state";
    case BULMEGART_BAD_PARAMETER: return "parameter out of its limits";
    case BULMEGART_BAD_START: return "starting offset 510 or 511";
    case BULMEGART_ENDED: return "engine has ended";
    case BULMEGART_BAD_ALIGNMENT: return "alignment wanted while the offset is 256 or more";
    case BULMEGART_LEVEL_OUT_OF_RANGE: return "level outside the coefficient range";
    case BULMEGART_ALL_ZERO: return "writer: all levels zero";
    case BULMEGART_NOT_CODED: return "writer: skip or RDPCM set where it isn't coded";
    case BULMEGART_HIDDEN_SIGN: return "writer: a hidden sign disagrees with its parity";
    case BULMEGART_SHORT_ROOM: return "writer: list longer than the room";
    case BULMEGART_BAD_LIST: return "bin reader: list ends early, has another tag, or has bins left over";
    case BULMEGART_BAD_LINE: return "book: line is not lower-case hexadecimal";
    case BULMEGART_LINE_LENGTH: return "book: line is not as long as it says";
    case BULMEGART_LONG_LINE: return "book: line is too long";
    case BULMEGART_FIGURES_FULL: return "figures: 4,096 accepted blocks are there";
    case BULMEGART_NOT_PLAIN: return "plain functions: an option or a statistic outside plain";
    default: return "another number";
    }
}

/* ---- contexts, statistics, lists */

/* A context is a byte, 0 to 127: bits 0 to 5 its state, bit 6 the favoured bin. Here are the first number of each syntax element's contexts, and
 * how many there are in all. Initial values have the same order; they are H.265's (9.3.2) for the slice's initType. */
enum {
    BULMEGART_LAST_X_PREFIX = 0,     /* 18: 15 luma, 3 chroma */
    BULMEGART_LAST_Y_PREFIX = 18,    /* 18: as the one before */
    BULMEGART_SIGNIFICANCE = 36,     /* 44: 27 luma, 15 chroma; then luma and chroma of the skip context */
    BULMEGART_CODED_SUB_BLOCK = 80,  /*  4: 2 luma, 2 chroma */
    BULMEGART_GREATER1 = 84,         /* 24: 16 luma, 8 chroma */
    BULMEGART_GREATER2 = 108,        /*  6: 4 luma, 2 chroma */
    BULMEGART_TRANSFORM_SKIP = 114,  /*  2: luma, chroma */
    BULMEGART_RDPCM_FLAG = 116,      /*  2: luma, chroma (explicit_rdpcm_flag) */
    BULMEGART_RDPCM_DIRECTION = 118, /*  2: luma, chroma (explicit_rdpcm_dir_flag) */
    BULMEGART_SCALE_VALUE = 120,     /*  8: 4·component + bin number (log2_res_scale_abs_plus1) */
    BULMEGART_SCALE_SIGN = 128,      /*  2: component (res_scale_sign_flag) */
    BULMEGART_CONTEXTS = 130
};

/* The statistics of persistent Rice, 0 to 84 each: chroma, chroma with skip or bypass, luma, luma with skip or bypass. */
enum { BULMEGART_STATISTICS = 4 };

/* Entries of a list that are no decision's: a bypass bin of 0 (of 1: one more), and the alignment of the range. */
enum { BULMEGART_BYPASS_ENTRY = 2 * BULMEGART_CONTEXTS, BULMEGART_ALIGNMENT_ENTRY = BULMEGART_BYPASS_ENTRY + 2 };

/* The bytes of the longest list of a block of each size, and of a scale. A room of so many is never too small. */
enum {
    BULMEGART_LONGEST_LIST_4X4 = 1124,
    BULMEGART_LONGEST_LIST_8X8 = 4464,
    BULMEGART_LONGEST_LIST_16X16 = 17796,
    BULMEGART_LONGEST_LIST_32X32 = 71088,
    BULMEGART_LONGEST_SCALE_LIST = 10,
    /* bytes of the longest payload that a list is packed to, by the block's size; a room of so many is never too small */
    BULMEGART_LONGEST_PAYLOAD_4X4 = 96,
    BULMEGART_LONGEST_PAYLOAD_8X8 = 366,
    BULMEGART_LONGEST_PAYLOAD_16X16 = 1434,
    BULMEGART_LONGEST_PAYLOAD_32X32 = 5698
};

/* ---- structs */

/* The engine's state between calls. */
typedef struct {
    uint32_t range;    /* 256 to 510, unless ended */
    uint32_t offset;   /* below range, unless ended */
    size_t position;   /* bits drawn: the place of the next bit in the payload */
    uint8_t ended;     /* flag: terminate answered 1 */
    uint32_t past;     /* bits past the end supplied since the first start, at most 65,535 */
} bulmegart_state;

/* A state; after a refusal the one handed in (bulmegart_start: zeros, which every other function answers by 3, unless 1, 2 or 4 comes first). */
typedef struct {
    uint32_t number;
    bulmegart_state state;
} bulmegart_state_answer;

/* One bin with the packed context and the state behind it; after a refusal bin 0, and the context and the state handed in. */
typedef struct {
    uint32_t number;
    uint8_t bin;
    uint8_t context;
    bulmegart_state state;
} bulmegart_decision_answer;

/* Bins or bits as a number, the first one highest; after a refusal value 0 and the state handed in. */
typedef struct {
    uint32_t number;
    uint32_t value;
    bulmegart_state state;
} bulmegart_bins_answer;

/* payload + first to payload + first + length; after a refusal length 0 at the payload's end. */
typedef struct {
    uint32_t number;
    size_t first;
    size_t length;
} bulmegart_rest_answer;

/* What the slice and the coding unit have settled before the block, with H.265's names. */
typedef struct {
    uint32_t log2;           /* 2 to 5: the block is n by n, n = 2^log2 (log2TrafoSize) */
    uint32_t scan;           /* 0 diagonal, 1 rows, 2 columns (scanIdx) */
    uint32_t depth;          /* bit depth of the component, 8 to 16 */
    uint8_t luma;            /* flag: 1 luma, 0 chroma (cIdx is 0); and flags all that follow */
    uint8_t hiding;          /* sign hiding enabled (sign_data_hiding_enabled_flag) */
    uint8_t skip_allowed;    /* transform skip may be coded (transform_skip_enabled_flag, and log2 is at most Log2MaxTransformSkipSize) */
    uint8_t lossless;        /* transquant bypass (cu_transquant_bypass_flag) */
    uint8_t persistent;      /* persistent Rice (persistent_rice_adaptation_enabled_flag) */
    uint8_t skip_context;    /* skip context enabled (transform_skip_context_enabled_flag) */
    uint8_t explicit_rdpcm;  /* explicit RDPCM enabled (explicit_rdpcm_enabled_flag) */
    uint8_t implicit_rdpcm;  /* implicit RDPCM enabled (implicit_rdpcm_enabled_flag), in an intra block of mode 10 or 26 */
    uint8_t inter;           /* inter block (CuPredMode is MODE_INTER) */
    uint8_t aligning;        /* bypass alignment enabled (cabac_bypass_alignment_enabled_flag) */
    uint8_t extended;        /* extended precision (extended_precision_processing_flag) */
} bulmegart_params;

/* Explicit RDPCM, here a byte. Document 01 says none, 0, 1: its direction is one less than this. */
enum {
    BULMEGART_RDPCM_NONE = 0,
    BULMEGART_RDPCM_HORIZONTAL = 1, /* document 01's 0 */
    BULMEGART_RDPCM_VERTICAL = 2    /* document 01's 1 */
};

/* What is found beside the levels; zeros after a refusal. */
typedef struct {
    uint8_t skip;       /* transform skip: 0 or 1 */
    uint8_t rdpcm;      /* explicit RDPCM: BULMEGART_RDPCM_NONE, .._HORIZONTAL or .._VERTICAL, here 0, 1, 2; document 01's none, 0, 1 */
    uint32_t column;    /* column extent: the greatest column that holds a non-zero level; every column beyond it is zero */
    uint32_t row;       /* row extent: the greatest row that holds a non-zero level; every row beyond it is zero */
    uint32_t greatest;  /* greatest magnitude */
} bulmegart_found;

typedef struct {
    uint32_t number;
    bulmegart_found found;
    bulmegart_state state;  /* behind the block; after a refusal the one handed in */
} bulmegart_block_answer;

typedef struct {
    uint32_t number;
    bulmegart_found found;
} bulmegart_list_answer;

typedef struct {
    uint32_t number;
    size_t length;  /* of the list, in bytes; 0 after a refusal */
} bulmegart_write_answer;

/* The scale of cross-component prediction: 0, or 1, 2, 4, 8 or one of these negated; 0 after a refusal. */
typedef struct {
    uint32_t number;
    int32_t scale;
    bulmegart_state state;  /* behind the scale; after a refusal the one handed in */
} bulmegart_scale_answer;

typedef struct {
    uint32_t number;
    int32_t scale;
} bulmegart_scale_list_answer;

/* Parameters of a plain block; all zeros after a refusal. */
typedef struct {
    uint32_t number;
    bulmegart_params params;
} bulmegart_params_answer;

/* ---- structs of a kept block and of figures */

/* What a kept block is made for. */
typedef struct {
    uint32_t log2;  /* 2 to 5: the block is n by n, n = 2^log2 */
    uint32_t bits;  /* T, 15 to 22: levels are -2^T to 2^T - 1. Of parameters T is 15; with `extended` depth + 6, if that is more */
} bulmegart_form;

/* The record of the whole. Sub-block (x, y) of 4x4 levels has the number y·(n/4) + x. */
typedef struct {
    uint64_t count;  /* levels that are not zero */
    uint64_t sum;    /* of magnitudes */
    uint64_t map;    /* bit s: sub-block s holds a level */
} bulmegart_whole;

/* 0 with the new record of the whole, or the number of the refusal with the record handed in. */
typedef struct {
    uint32_t number;
    bulmegart_whole whole;
} bulmegart_changed;

typedef struct {
    bulmegart_block_answer block;
    bulmegart_whole whole;
} bulmegart_kept_block_answer;

typedef struct {
    bulmegart_list_answer list;
    bulmegart_whole whole;
} bulmegart_kept_list_answer;

/* One count and one sum for each sub-block of the largest block. */
enum { BULMEGART_RECORDS = 64 };

/* Figures: what is not by place or by number. */
typedef struct {
    uint32_t log2;      /* 2 to 5: the blocks are n by n, n = 2^log2 */
    uint32_t accepted;  /* blocks, at most 4,096 */
    uint64_t past;      /* the sum of their totals past the end */
} bulmegart_totals;

/* 0 with the new totals, or the number of the refusal with the totals handed in. */
typedef struct {
    uint32_t number;
    bulmegart_totals totals;
} bulmegart_added;

/* What stands at a place; zeros after a refusal. */
typedef struct {
    uint32_t number;
    uint32_t blocks;    /* that have a non-zero level there */
    uint32_t greatest;  /* magnitude */
    uint64_t sum;       /* of magnitudes */
} bulmegart_place_figures;

/* How often a number was added, stopping at 65,535; 0 after a refusal. */
typedef struct {
    uint32_t number;
    uint32_t count;
} bulmegart_tally;

/* Places of the largest block, and numbers of refusals. */
enum { BULMEGART_PLACES = 1024, BULMEGART_NUMBERS = 24 };

/* ---- contexts */

/* The packed context of an initial value at a QP (SliceQpY; 0 for one below 0); a QP above 51 counts as 51. No refusal. */
uint8_t bulmegart_init(uint8_t value, uint8_t qp);

/* Gives a number: 4 unless there are BULMEGART_CONTEXTS values, whose order is that of the contexts. Accepted: the contexts made of the values at the QP,
 * the statistics 0; refused: both untouched. */
uint32_t bulmegart_init_contexts(uint8_t contexts[BULMEGART_CONTEXTS], uint8_t statistics[BULMEGART_STATISTICS], const uint8_t *values,
                                 size_t values_length, uint8_t qp);

/* ---- the engine; no buffer is written. `flags` is the state's `ended`. */

/* Start: range 510, offset the first 9 bits. 1, 2, 5. */
bulmegart_state_answer bulmegart_start(const uint8_t *payload, size_t length);

/* One decision on a packed context, which the answer has changed. 1, 2, 4 (flags), 3, 6. */
bulmegart_decision_answer bulmegart_decode_bin(const uint8_t *payload, size_t length, bulmegart_state state, uint8_t context);

/* One bypass bin. 1, 2, 4 (flags), 3, 6. */
bulmegart_bins_answer bulmegart_decode_bypass(const uint8_t *payload, size_t length, bulmegart_state state);

/* Bypass bins, 0 to 32 of them. 1, 2, 4 (flags, count), 3, 6. */
bulmegart_bins_answer bulmegart_decode_bypass_bits(const uint8_t *payload, size_t length, bulmegart_state state, uint32_t count);

/* Terminate: 1 ends the engine, with the range less 2 and nothing drawn; else 0. 1, 2, 4 (flags), 3, 6. */
bulmegart_bins_answer bulmegart_decode_terminate(const uint8_t *payload, size_t length, bulmegart_state state);

/* Alignment of the range, as before escape data: range 256; offset, position and past stay. 1, 2, 4 (flags), 3, 6, 7. */
bulmegart_state_answer bulmegart_align_bypass(const uint8_t *payload, size_t length, bulmegart_state state);

/* Byte alignment: the position rounded up to a whole byte. 1, 2, 4 (flags), 3. */
bulmegart_state_answer bulmegart_byte_align(const uint8_t *payload, size_t length, bulmegart_state state);

/* The rest of the payload behind byte alignment. 1, 2, 4 (flags), 3. */
bulmegart_rest_answer bulmegart_rest(const uint8_t *payload, size_t length, bulmegart_state state);

/* Restart: align, range 510, 9 bits; ended is cleared, past kept, and added to if it reads past the end. 1, 2, 4 (flags), 3, 5. */
bulmegart_state_answer bulmegart_restart(const uint8_t *payload, size_t length, bulmegart_state state);

/* Raw bits, 0 to 32 of them, in any phase: range and offset stay. 1, 2, 4 (flags, count), 3. */
bulmegart_bins_answer bulmegart_read_bits(const uint8_t *payload, size_t length, bulmegart_state state, uint32_t count);

/* ---- one block. Levels stand row by row, y·n + x; at least n·n places are lent, and those past n·n are never changed. */

/* From a payload. 1, 2, 4 (parameters, flags, short block), 3, 6; then 7 or 8 in the order of reading.
 * Accepted: n·n levels, the contexts and the statistics as the block left them. 1, 2, 4, 3, 6: all three untouched.
 * 7, 8: n·n levels zero, contexts and statistics untouched. */
bulmegart_block_answer bulmegart_residual_coding(const uint8_t *payload, size_t length, bulmegart_state state,
                                            uint8_t contexts[BULMEGART_CONTEXTS], uint8_t statistics[BULMEGART_STATISTICS],
                                            bulmegart_params params, int32_t *levels, size_t levels_length);

/* Where a call of bulmegart_residual_coding with the same arguments ends, by 7 or 8 too, and how many bits past the payload's end that call draws, up to
 * 65,535; a total handed in is not counted. Where another number refuses the call: the state handed in, and 0. Nothing is written; what the levels hold does
 * not matter. Takes up to 10 KB of stack. */
typedef struct {
    bulmegart_state state;
    uint32_t past;
} bulmegart_reached_answer;

bulmegart_reached_answer bulmegart_reached(const uint8_t *payload, size_t length, bulmegart_state state,
                                           const uint8_t contexts[BULMEGART_CONTEXTS], const uint8_t statistics[BULMEGART_STATISTICS],
                                           bulmegart_params params, const int32_t *levels, size_t levels_length);

/* From a bin list. 4 (parameters, flags, short block), 3 (a statistic above 84); then 8 or 13 in the order of reading.
 * Accepted: n·n levels, the statistics as the block left them. 4, 3: both untouched. 8, 13: n·n levels zero, statistics untouched. */
bulmegart_list_answer bulmegart_read_bins(const uint8_t *list, size_t length, uint8_t statistics[BULMEGART_STATISTICS],
                                          bulmegart_params params, int32_t *levels, size_t levels_length);

/* A block as a bin list in the room: the one list that reads as exactly these levels, skip and RDPCM (one of BULMEGART_RDPCM_NONE, ..).
 * 4 (parameters, flags, RDPCM above 2, short block), 3 (a statistic above 84), 9, 10, 8, 11, 12, each looked for over all n·n places and no
 * further. 9, 10, 8 or 11 is given exactly when no list of any length reads as those, 12 exactly when one does and none fits the room.
 * Accepted: the list at the front of the room, which is untouched beyond it; the statistics as the block leaves them. Refused: both untouched. */
bulmegart_write_answer bulmegart_write_bins(bulmegart_params params, uint8_t statistics[BULMEGART_STATISTICS], const int32_t *levels,
                                            size_t levels_length, uint8_t skip, uint8_t rdpcm, uint8_t *room, size_t room_length);

/* ---- a tray: up to BULMEGART_TRAY_MOST blocks of one payload, one after the other, in one call */

enum { BULMEGART_TRAY_MOST = 256 };

/* The parameters of one block of a tray: those of bulmegart_params, a byte each and nothing between them. */
typedef struct {
    uint8_t log2;
    uint8_t scan;
    uint8_t depth;
    uint8_t luma;
    uint8_t hiding;
    uint8_t skip_allowed;
    uint8_t lossless;
    uint8_t persistent;
    uint8_t skip_context;
    uint8_t explicit_rdpcm;
    uint8_t implicit_rdpcm;
    uint8_t inter;
    uint8_t aligning;
    uint8_t extended;
} bulmegart_record;

/* What is found of one block of a tray: as in bulmegart_found, each in 32 bits. */
typedef struct {
    uint32_t skip;
    uint32_t rdpcm;
    uint32_t column;
    uint32_t row;
    uint32_t greatest;
} bulmegart_tray_found;

typedef struct {
    uint32_t number;        /* the refusal that stopped it, or 0 */
    size_t done;            /* how many blocks were done */
    bulmegart_state state;  /* as the last block done left it; the one handed in if none was */
} bulmegart_tray_answer;

/* What bulmegart_residual_coding gives of one record after the other, with state, contexts and statistics carried along. Each block has its own n·n
 * places of the levels, one part behind the other; found has one struct for each record. Lengths count records, places and structs.
 * No records at all: accepted with 0 done, whatever else is handed in, and everything as it was.
 * Before anything is read, with everything untouched: 1, 2, 4 (flags; more than BULMEGART_TRAY_MOST records; any record out of its limits; fewer
 * places than all parts take; fewer found than records), 3, 6. Then 7 or 8 of a block stops the tray: its part is zero, the blocks before it
 * stand, later parts and their found are untouched. Contexts, statistics and the answer's state are as the last block done left them.
 * Places past the last part, and found past the blocks done, are never changed. */
bulmegart_tray_answer bulmegart_read_tray(const uint8_t *payload, size_t length, bulmegart_state state,
                                          uint8_t contexts[BULMEGART_CONTEXTS], uint8_t statistics[BULMEGART_STATISTICS],
                                          const bulmegart_record *records, size_t records_length, int32_t *levels, size_t levels_length,
                                          bulmegart_tray_found *found, size_t found_length);

/* ---- one scale of cross-component prediction, of chroma component 0 (Cb) or 1 (Cr) */

/* From a payload. 1, 2, 4 (flags, component above 1), 3, 6. Accepted: the contexts as the scale left them; refused: untouched. */
bulmegart_scale_answer bulmegart_read_scale(const uint8_t *payload, size_t length, bulmegart_state state,
                                            uint8_t contexts[BULMEGART_CONTEXTS], uint32_t component);

/* From a bin list, which it must end. 4 (component above 1), 13. */
bulmegart_scale_list_answer bulmegart_read_scale_bins(const uint8_t *list, size_t length, uint32_t component);

/* A scale as a bin list in the room: the one list that reads as it. 4 (component above 1; a scale that is none of the nine, which is when no list
 * of any length reads as it), 12. Accepted: the list at the front of the room, which is untouched beyond it. Refused: untouched. */
bulmegart_write_answer bulmegart_write_scale_bins(uint32_t component, int32_t scale, uint8_t *room, size_t room_length);

/* ---- plain cameras. Plain is depth 8, scans 1 and 2 at sizes 4 and 8 alone, persistent, skip_context, explicit_rdpcm, implicit_rdpcm, aligning and
 * extended 0, and the four statistics 0. What is plain is answered as by the functions above, for the same levels, contexts and room; anything else
 * by 24, behind 4 and before 3, with nothing touched. So no statistic is answered by 3, 7 is never given, and the statistics stay 0. */

/* The parameters of a plain block from what is left to say. 4 (size, scan, flags), 24 (scan 1 or 2 above size 8). Whatever is made passes 4 and 24
 * below with statistics of 0 and n·n levels, and all parameters that do are made so. */
bulmegart_params_answer bulmegart_plain_params(uint32_t log2, uint32_t scan, uint8_t luma, uint8_t hiding, uint8_t skip_allowed,
                                               uint8_t lossless, uint8_t inter);

/* From a payload. 1, 2, 4 (parameters, flags, short block), 24, 3 (state or context), 6; then 8.
 * Accepted: n·n levels, the contexts as the block left them. 8: n·n levels zero, contexts untouched. Any other number: both untouched. */
bulmegart_block_answer bulmegart_residual_coding_plain(const uint8_t *payload, size_t length, bulmegart_state state,
                                                       uint8_t contexts[BULMEGART_CONTEXTS], uint8_t statistics[BULMEGART_STATISTICS],
                                                       bulmegart_params params, int32_t *levels, size_t levels_length);

/* From a bin list. 4 (parameters, flags, short block), 24; then 8 or 13 in the order of reading.
 * Accepted: n·n levels. 4, 24: untouched. 8, 13: n·n levels zero. */
bulmegart_list_answer bulmegart_read_bins_plain(const uint8_t *list, size_t length, uint8_t statistics[BULMEGART_STATISTICS],
                                                bulmegart_params params, int32_t *levels, size_t levels_length);

/* A block as a bin list in the room. 4 (parameters, flags, RDPCM above 2, short block), 24, 9, 10 (any RDPCM, since none is coded), 8, 11, 12.
 * Accepted: the list at the front of the room, which is untouched beyond it. Refused: untouched. */
bulmegart_write_answer bulmegart_write_bins_plain(bulmegart_params params, uint8_t statistics[BULMEGART_STATISTICS], const int32_t *levels,
                                                  size_t levels_length, uint8_t skip, uint8_t rdpcm, uint8_t *room, size_t room_length);

/* ---- bin lists as payloads (request (i)). Contexts and statistics are read only: bulmegart_start on the payload, then the reader with the same
 * contexts and statistics, gives what the list holds, never past the end; then bulmegart_decode_terminate is 1, and its position in whole bytes, rounded up,
 * is the length. Zero bits fill the last byte. Accepted: the payload at the front of the room, which is untouched beyond it. Refused: untouched.
 * These take up to 10 KB of stack. */

/* A block's list. 4 (parameters, flags), 3 (contexts, statistics), 13 if bulmegart_read_bins refuses the list by 8 or 13, 12 exactly if the payload
 * is longer than the room. */
bulmegart_write_answer bulmegart_pack_bins(const uint8_t contexts[BULMEGART_CONTEXTS], const uint8_t statistics[BULMEGART_STATISTICS],
                                           bulmegart_params params, const uint8_t *list, size_t length, uint8_t *room, size_t room_length);

/* A scale's list. 4 (component above 1), 3 (contexts), 13 if bulmegart_read_scale_bins refuses the list by 13, 12 exactly if the payload is longer than the
 * room. A room of (length / 2 * 7 + 16) / 8 bytes is never too small. */
bulmegart_write_answer bulmegart_pack_scale(const uint8_t contexts[BULMEGART_CONTEXTS], uint32_t component, const uint8_t *list, size_t length,
                                            uint8_t *room, size_t room_length);

typedef struct {
    uint32_t number;
    size_t done;    /* how many lists were read: where the number is 13, the one behind them is refused, or bytes are left behind all of them; 0 after 4 and 3 */
    size_t length;  /* the payload's; 0 after a refusal */
} bulmegart_pack_tray_answer;

/* The lists of a tray's blocks, one after the other in one buffer with nothing between them, as one payload: contexts and statistics are carried on from
 * list to list, and the flush is one. Each list ends where its block does, so no lengths are handed in. bulmegart_read_tray with the same records, contexts
 * and statistics, on the state that bulmegart_start gives, does every block and gives what the lists hold. records_length counts records, length bytes.
 * No records and no bytes are a payload with nothing in it. A room of (length / 2 * 7 + 16) / 8 bytes is never too small.
 * 4 (a flag above 1; more than BULMEGART_TRAY_MOST records; any record out of its limits), 3 (contexts, statistics), 13, 12 exactly if the payload is longer
 * than the room. */
bulmegart_pack_tray_answer bulmegart_pack_tray(const uint8_t contexts[BULMEGART_CONTEXTS], const uint8_t statistics[BULMEGART_STATISTICS],
                                               const bulmegart_record *records, size_t records_length, const uint8_t *lists, size_t length,
                                               uint8_t *room, size_t room_length);

/* ---- the book of test pieces: text, a frame a line, answered a line each: `N ok GREATEST PAST` or `N no NUMBER`, N the line's number. These take up to
 * 14 KB of stack.
 *
 * A frame is 8 bytes (log2 size, luma 1 or chroma 0, scan, bit depth, QP, hiding 0 or 1, the payload's length in two, high first), BULMEGART_CONTEXTS initial
 * values and the payload, at most 4,096 bytes; its line has two lower-case hexadecimal digits for each byte, nothing between them, and a line feed behind. The
 * other parameters are 0. A line's NUMBER is the first of 22, 20, 21, 1, 4, 5, 8 that holds; GREATEST and PAST are the block's. */

/* What a piece of a book, or its end, gave: the line that is being read, by its number, from 1, and how many of its bytes the buffer holds; and how
 * many bytes of the room were written. */
typedef struct {
    uint32_t number;
    uint64_t line;
    size_t held;
    size_t written;
} bulmegart_book_answer;

enum {
    BULMEGART_BOOK_BUFFER = 8469, /* bytes of the lent buffer */
    BULMEGART_BOOK_ANSWER = 70,   /* bytes of room that the answer to a line takes at most */
    BULMEGART_BOOK_NUMBERS = 23   /* ok, which is counted as 0, and 1 to 22 */
};

/* A piece of a book, of any length and cut anywhere: the answers to the lines that end in it, at the front of the room. The first call is handed line
 * 1 and 0 held, whatever the buffer holds, each other what the call before it gave, with the same buffer. tally[n] grows by one for each line that was
 * answered by n, 0 being ok, where it has that place, and stops at 2^64 - 1. 4 (a buffer of another length than BULMEGART_BOOK_BUFFER; more held; no number left
 * for the lines that could end), 12 (the room has not BULMEGART_BOOK_ANSWER bytes for each byte of the piece). Accepted: nothing is said of the room beyond
 * what was written, nor of the buffer beyond what is held. Refused: all untouched, line and held as handed in, 0 written. */
bulmegart_book_answer bulmegart_book_feed(const uint8_t *piece, size_t length, uint8_t *buffer, size_t buffer_length, uint64_t line, size_t held,
                                          uint64_t *tally, size_t tally_length, uint8_t *room, size_t room_length);

/* The end of a book: the answer to the line that was not finished, if there is one. 4 (as above), 12 (less room than BULMEGART_BOOK_ANSWER). Accepted: the
 * tally as above, and nothing is said of line, held and the room beyond what was written; another book begins with line 1 and 0 held. Refused: all
 * untouched. */
bulmegart_book_answer bulmegart_book_finish(const uint8_t *buffer, size_t buffer_length, uint64_t line, size_t held, uint64_t *tally,
                                         size_t tally_length, uint8_t *room, size_t room_length);

/* ---- a block with its summary kept beside it: one record (count, sum) for each 4x4 sub-block and one for the whole
 *
 * The caller lends the levels, 64 counts, 64 sums, and hands the form and the record of the whole in and back. 4 for every function: a form that
 * is none, or fewer than n·n places; then nothing changes. A kept block begins with bulmegart_clear_kept, whatever the buffers and the record hold. The
 * records are what a fresh count gives after each function that counts (clear, copy, count, a reading that comes to the block), whatever stood there, and
 * after bulmegart_set_level if they were before. Records that are not are taken all the same: set counts its own sub-block anew and adds up the others as
 * they are, a sum stopping at 2^64 - 1. */

/* One level at a place, y·n + x. 4 (place outside the block), 8 (level outside the range); nothing changes. Else the place, its sub-block's record
 * and the record of the whole change, and nothing else. */
bulmegart_changed bulmegart_set_level(int32_t *levels, size_t levels_length, uint32_t counts[BULMEGART_RECORDS], uint64_t sums[BULMEGART_RECORDS],
                                     bulmegart_form form, bulmegart_whole whole, size_t place, int32_t level);

/* n·n levels zero, and their records. 4. */
bulmegart_changed bulmegart_clear_kept(int32_t *levels, size_t levels_length, uint32_t counts[BULMEGART_RECORDS], uint64_t sums[BULMEGART_RECORDS],
                                       bulmegart_form form, bulmegart_whole whole);

/* The n·n levels of another block, whose levels are in its range. 4 (another size or range, or too few places); nothing changes. */
bulmegart_changed bulmegart_copy_in(int32_t *levels, size_t levels_length, uint32_t counts[BULMEGART_RECORDS], uint64_t sums[BULMEGART_RECORDS],
                                      bulmegart_form form, bulmegart_whole whole, bulmegart_form other, const int32_t *from, size_t from_length);

/* A fresh count of the levels that stand there, whatever their range. 4. */
bulmegart_changed bulmegart_recount(const int32_t *levels, size_t levels_length, uint32_t counts[BULMEGART_RECORDS],
                                       uint64_t sums[BULMEGART_RECORDS], bulmegart_form form, bulmegart_whole whole);

/* bulmegart_residual_coding into a kept block, with 4 also for parameters of another size or range. 1, 2, 4, 3, 6: nothing changes. 7, 8: n·n levels zero,
 * and their records. */
bulmegart_kept_block_answer bulmegart_read_kept(const uint8_t *payload, size_t length, bulmegart_state state,
                                                      uint8_t contexts[BULMEGART_CONTEXTS], uint8_t statistics[BULMEGART_STATISTICS],
                                                      bulmegart_params params, int32_t *levels, size_t levels_length,
                                                      uint32_t counts[BULMEGART_RECORDS], uint64_t sums[BULMEGART_RECORDS], bulmegart_form form,
                                                      bulmegart_whole whole);

/* bulmegart_read_bins into a kept block, with 4 also for parameters of another size or range. 4, 3: nothing changes. 8, 13: n·n levels zero, and their
 * records. */
bulmegart_kept_list_answer bulmegart_read_kept_bins(const uint8_t *list, size_t length, uint8_t statistics[BULMEGART_STATISTICS],
                                                    bulmegart_params params, int32_t *levels, size_t levels_length,
                                                    uint32_t counts[BULMEGART_RECORDS], uint64_t sums[BULMEGART_RECORDS], bulmegart_form form,
                                                    bulmegart_whole whole);

/* ---- the morning figures, over up to 4,096 accepted blocks of one size, in any order
 *
 * The caller lends three arrays of 1,024 (for each place: blocks with a non-zero level there, the sum of magnitudes, the greatest) and 24 tallies
 * (of number k at k - 1), and hands the totals in and back. After a refusal all is as it was. Figures that no blocks give are taken all the same:
 * a sum stops at the greatest number of its width. Figures begin with bulmegart_begin_figures, whatever the arrays and the totals hold. */

/* No blocks and no refusals yet, of side 2^log2, whatever stood there. 4 (log2 not 2 to 5). */
bulmegart_added bulmegart_begin_figures(uint32_t blocks[BULMEGART_PLACES], uint64_t sums[BULMEGART_PLACES], uint32_t greatests[BULMEGART_PLACES],
                                        uint32_t tallies[BULMEGART_NUMBERS], bulmegart_totals totals, uint32_t log2);

/* An accepted block with its total past the end, the `past` of the state behind it. 4 (another size, or fewer than n·n places), 23 (4,096 are there). */
bulmegart_added bulmegart_add_block(uint32_t blocks[BULMEGART_PLACES], uint64_t sums[BULMEGART_PLACES],
                                            uint32_t greatests[BULMEGART_PLACES], bulmegart_totals totals, uint32_t log2, const int32_t *levels,
                                            size_t levels_length, uint32_t past);

/* The number of a refused block: one to its tally, which stops at 65,535. 4 (not 1 to 24). */
bulmegart_added bulmegart_add_refusal(uint32_t tallies[BULMEGART_NUMBERS], bulmegart_totals totals, uint32_t number);

/* Other figures of the same size: the figures of both. 4 (another size), 23 (more than 4,096 blocks together). */
bulmegart_added bulmegart_merge_figures(uint32_t blocks[BULMEGART_PLACES], uint64_t sums[BULMEGART_PLACES], uint32_t greatests[BULMEGART_PLACES],
                                        uint32_t tallies[BULMEGART_NUMBERS], bulmegart_totals totals, const uint32_t other_blocks[BULMEGART_PLACES],
                                        const uint64_t other_sums[BULMEGART_PLACES], const uint32_t other_greatests[BULMEGART_PLACES],
                                        const uint32_t other_tallies[BULMEGART_NUMBERS], bulmegart_totals other);

/* What stands at a place. 4 (outside the block). */
bulmegart_place_figures bulmegart_at_place(const uint32_t blocks[BULMEGART_PLACES], const uint64_t sums[BULMEGART_PLACES],
                                             const uint32_t greatests[BULMEGART_PLACES], bulmegart_totals totals, size_t place);

/* The tally of a number. 4 (not 1 to 24). */
bulmegart_tally bulmegart_tally_of(const uint32_t tallies[BULMEGART_NUMBERS], bulmegart_totals totals, uint32_t number);

/* ---- the press: a frame of the book from a drawing; the book's line of it has two digits for each byte. It takes up to 80 KB of stack, for the longest list
 * of a block. */

typedef struct {
    uint32_t number;
    size_t length;  /* of the frame, in bytes; 0 after a refusal */
} bulmegart_press_answer;

enum { BULMEGART_PRESS_ROOM = 4234 }; /* bytes of the longest frame */

/* A drawing: the six bytes of a frame's header (log2 size, luma 1 or chroma 0, scan, bit depth, QP, hiding 0 or 1), BULMEGART_CONTEXTS initial values and
 * n·n levels, row by row. 4 (another length of header or values, less room than BULMEGART_PRESS_ROOM, parameters, short block), 9, 8, 11, 22 (a payload over
 * 4,096 bytes). Accepted: the frame at the front of the room, which the book answers by ok, the greatest magnitude and 0. Refused: the room is untouched. */
bulmegart_press_answer bulmegart_press(const uint8_t *head, size_t head_length, const uint8_t *values, size_t values_length, const int32_t *levels,
                                       size_t levels_length, uint8_t *room, size_t room_length);

/* ---- one luma 4x4 block of 16 coefficients of H.264 (request (xiii)), by the same engine
 *
 * Levels stand by list place, 0 to 15, in the order of the scan: to undo the scan is the caller's. At least 16 places are lent, and those past 16
 * are never looked at or changed. Each level is -32768 to 32767. Entries of a list are as above, with the numbers of these contexts. */

/* Contexts, and pairs m, n, in this order; the pairs are H.264's (9.3.1.1) for ctxBlockCat 2, by ctxIdx from the one that is named on. */
enum {
    BULMEGART_H264_SIGNIFICANCE = 0, /* 15: list place (significant_coeff_flag; from 134, in fields from 306) */
    BULMEGART_H264_LAST = 15,        /* 15: list place (last_significant_coeff_flag; from 195, in fields from 367) */
    BULMEGART_H264_MAGNITUDE = 30,   /* 10: 5 of the first bin, 5 of the others (coeff_abs_level_minus1; from 247) */
    BULMEGART_H264_CONTEXTS = 40
};

/* The places of a block, and the bytes of its longest list. A room of so many is never too small. */
enum { BULMEGART_H264_PLACES = 16, BULMEGART_H264_LONGEST_LIST = 1468 };

typedef struct {
    uint32_t number;
    uint32_t greatest;      /* greatest magnitude; 0 after a refusal */
    bulmegart_state state;  /* behind the block; after a refusal the one handed in */
} bulmegart_h264_block_answer;

typedef struct {
    uint32_t number;
    uint32_t greatest;      /* greatest magnitude; 0 after a refusal */
} bulmegart_h264_list_answer;

/* The contexts from 40 pairs m, n, handed as 80 numbers m, n, m, n, ..; numbers is how many are lent. A QP above 51 counts as 51.
 * 4: not 80 numbers, or one outside -128 to 127. Refused: untouched. */
uint32_t bulmegart_h264_init_pairs(uint8_t contexts[BULMEGART_H264_CONTEXTS], const int32_t *pairs, size_t numbers, uint8_t qp);

/* From a payload. 1, 2, 4 (flags, under 16 places), 3, 6; then 8.
 * Accepted: 16 levels, and the contexts as the block left them. 1, 2, 4, 3, 6: both untouched. 8: 16 levels zero, contexts untouched. */
bulmegart_h264_block_answer bulmegart_h264_residual_block(const uint8_t *payload, size_t length, bulmegart_state state,
                                                      uint8_t contexts[BULMEGART_H264_CONTEXTS], int32_t *levels, size_t levels_length);

/* From a bin list, which it must end. 4 (under 16 places): untouched; then 8 or 13 in the order of reading: 16 levels zero. */
bulmegart_h264_list_answer bulmegart_h264_read_bins(const uint8_t *list, size_t length, int32_t *levels, size_t levels_length);

/* The first 16 places as a bin list in the room: the one list that reads as exactly these levels. 4 (under 16 places), 9, 8, 12. 9 or 8 is given
 * exactly when no list of any length reads as those, 12 exactly when one does and it does not fit the room.
 * Accepted: the list at the front of the room, which is untouched beyond it. Refused: untouched. */
bulmegart_write_answer bulmegart_h264_write_bins(const int32_t *levels, size_t levels_length, uint8_t *room, size_t room_length);

/* A list as a payload in the room, as bulmegart_pack_bins has it: the contexts are read only, and bulmegart_start, then bulmegart_h264_residual_block with the
 * same contexts give what the list holds. 3, 13 if bulmegart_h264_read_bins refuses the list by 8 or 13, 12 exactly if the payload is longer than the room.
 * A room of (length / 2 * 7 + 16) / 8 bytes is never too small. Accepted: the room is untouched beyond the payload. Refused: untouched. */
bulmegart_write_answer bulmegart_h264_pack_bins(const uint8_t contexts[BULMEGART_H264_CONTEXTS], const uint8_t *list, size_t length, uint8_t *room,
                                                size_t room_length);

#ifdef __cplusplus
}
#endif

/* ---- how the structs are laid out, in the archive as here: where this compiles, caller and archive mean the same bytes */

#if defined(__cplusplus) && __cplusplus >= 201103L
#define BULMEGART_ASSERT(what) static_assert(what, #what)
#elif defined(__STDC_VERSION__) && __STDC_VERSION__ >= 201112L
#define BULMEGART_ASSERT(what) _Static_assert(what, #what)
#endif
#ifdef BULMEGART_ASSERT
#define BULMEGART_AT(type, field, place) BULMEGART_ASSERT(offsetof(bulmegart_##type, field) == (place))
#define BULMEGART_SIZE(type, size) BULMEGART_ASSERT(sizeof(bulmegart_##type) == (size))
BULMEGART_ASSERT(sizeof(size_t) == 8);
BULMEGART_AT(state, range, 0);
BULMEGART_AT(state, offset, 4);
BULMEGART_AT(state, position, 8);
BULMEGART_AT(state, ended, 16);
BULMEGART_AT(state, past, 20);
BULMEGART_SIZE(state, 24);
BULMEGART_AT(state_answer, number, 0);
BULMEGART_AT(state_answer, state, 8);
BULMEGART_SIZE(state_answer, 32);
BULMEGART_AT(decision_answer, number, 0);
BULMEGART_AT(decision_answer, bin, 4);
BULMEGART_AT(decision_answer, context, 5);
BULMEGART_AT(decision_answer, state, 8);
BULMEGART_SIZE(decision_answer, 32);
BULMEGART_AT(bins_answer, number, 0);
BULMEGART_AT(bins_answer, value, 4);
BULMEGART_AT(bins_answer, state, 8);
BULMEGART_SIZE(bins_answer, 32);
BULMEGART_AT(rest_answer, number, 0);
BULMEGART_AT(rest_answer, first, 8);
BULMEGART_AT(rest_answer, length, 16);
BULMEGART_SIZE(rest_answer, 24);
BULMEGART_AT(params, log2, 0);
BULMEGART_AT(params, scan, 4);
BULMEGART_AT(params, depth, 8);
BULMEGART_AT(params, luma, 12);
BULMEGART_AT(params, hiding, 13);
BULMEGART_AT(params, skip_allowed, 14);
BULMEGART_AT(params, lossless, 15);
BULMEGART_AT(params, persistent, 16);
BULMEGART_AT(params, skip_context, 17);
BULMEGART_AT(params, explicit_rdpcm, 18);
BULMEGART_AT(params, implicit_rdpcm, 19);
BULMEGART_AT(params, inter, 20);
BULMEGART_AT(params, aligning, 21);
BULMEGART_AT(params, extended, 22);
BULMEGART_SIZE(params, 24);
BULMEGART_AT(found, skip, 0);
BULMEGART_AT(found, rdpcm, 1);
BULMEGART_AT(found, column, 4);
BULMEGART_AT(found, row, 8);
BULMEGART_AT(found, greatest, 12);
BULMEGART_SIZE(found, 16);
BULMEGART_AT(reached_answer, state, 0);
BULMEGART_AT(reached_answer, past, 24);
BULMEGART_SIZE(reached_answer, 32);
BULMEGART_AT(block_answer, number, 0);
BULMEGART_AT(block_answer, found, 4);
BULMEGART_AT(block_answer, state, 24);
BULMEGART_SIZE(block_answer, 48);
BULMEGART_AT(list_answer, number, 0);
BULMEGART_AT(list_answer, found, 4);
BULMEGART_SIZE(list_answer, 20);
BULMEGART_AT(write_answer, number, 0);
BULMEGART_AT(write_answer, length, 8);
BULMEGART_SIZE(write_answer, 16);
BULMEGART_AT(scale_answer, number, 0);
BULMEGART_AT(scale_answer, scale, 4);
BULMEGART_AT(scale_answer, state, 8);
BULMEGART_SIZE(scale_answer, 32);
BULMEGART_AT(scale_list_answer, number, 0);
BULMEGART_AT(scale_list_answer, scale, 4);
BULMEGART_SIZE(scale_list_answer, 8);
BULMEGART_AT(params_answer, number, 0);
BULMEGART_AT(params_answer, params, 4);
BULMEGART_SIZE(params_answer, 28);
BULMEGART_AT(record, log2, 0);
BULMEGART_AT(record, scan, 1);
BULMEGART_AT(record, depth, 2);
BULMEGART_AT(record, luma, 3);
BULMEGART_AT(record, hiding, 4);
BULMEGART_AT(record, skip_allowed, 5);
BULMEGART_AT(record, lossless, 6);
BULMEGART_AT(record, persistent, 7);
BULMEGART_AT(record, skip_context, 8);
BULMEGART_AT(record, explicit_rdpcm, 9);
BULMEGART_AT(record, implicit_rdpcm, 10);
BULMEGART_AT(record, inter, 11);
BULMEGART_AT(record, aligning, 12);
BULMEGART_AT(record, extended, 13);
BULMEGART_SIZE(record, 14);
BULMEGART_AT(tray_found, skip, 0);
BULMEGART_AT(tray_found, rdpcm, 4);
BULMEGART_AT(tray_found, column, 8);
BULMEGART_AT(tray_found, row, 12);
BULMEGART_AT(tray_found, greatest, 16);
BULMEGART_SIZE(tray_found, 20);
BULMEGART_AT(tray_answer, number, 0);
BULMEGART_AT(tray_answer, done, 8);
BULMEGART_AT(tray_answer, state, 16);
BULMEGART_SIZE(tray_answer, 40);
BULMEGART_AT(pack_tray_answer, number, 0);
BULMEGART_AT(pack_tray_answer, done, 8);
BULMEGART_AT(pack_tray_answer, length, 16);
BULMEGART_SIZE(pack_tray_answer, 24);
BULMEGART_AT(book_answer, number, 0);
BULMEGART_AT(book_answer, line, 8);
BULMEGART_AT(book_answer, held, 16);
BULMEGART_AT(book_answer, written, 24);
BULMEGART_SIZE(book_answer, 32);
BULMEGART_AT(form, log2, 0);
BULMEGART_AT(form, bits, 4);
BULMEGART_SIZE(form, 8);
BULMEGART_AT(whole, count, 0);
BULMEGART_AT(whole, sum, 8);
BULMEGART_AT(whole, map, 16);
BULMEGART_SIZE(whole, 24);
BULMEGART_AT(changed, number, 0);
BULMEGART_AT(changed, whole, 8);
BULMEGART_SIZE(changed, 32);
BULMEGART_AT(kept_block_answer, block, 0);
BULMEGART_AT(kept_block_answer, whole, 48);
BULMEGART_SIZE(kept_block_answer, 72);
BULMEGART_AT(kept_list_answer, list, 0);
BULMEGART_AT(kept_list_answer, whole, 24);
BULMEGART_SIZE(kept_list_answer, 48);
BULMEGART_AT(totals, log2, 0);
BULMEGART_AT(totals, accepted, 4);
BULMEGART_AT(totals, past, 8);
BULMEGART_SIZE(totals, 16);
BULMEGART_AT(added, number, 0);
BULMEGART_AT(added, totals, 8);
BULMEGART_SIZE(added, 24);
BULMEGART_AT(place_figures, number, 0);
BULMEGART_AT(place_figures, blocks, 4);
BULMEGART_AT(place_figures, greatest, 8);
BULMEGART_AT(place_figures, sum, 16);
BULMEGART_SIZE(place_figures, 24);
BULMEGART_AT(tally, number, 0);
BULMEGART_AT(tally, count, 4);
BULMEGART_SIZE(tally, 8);
BULMEGART_AT(press_answer, number, 0);
BULMEGART_AT(press_answer, length, 8);
BULMEGART_SIZE(press_answer, 16);
BULMEGART_AT(h264_block_answer, number, 0);
BULMEGART_AT(h264_block_answer, greatest, 4);
BULMEGART_AT(h264_block_answer, state, 8);
BULMEGART_SIZE(h264_block_answer, 32);
BULMEGART_AT(h264_list_answer, number, 0);
BULMEGART_AT(h264_list_answer, greatest, 4);
BULMEGART_SIZE(h264_list_answer, 8);
#undef BULMEGART_ASSERT
#undef BULMEGART_AT
#undef BULMEGART_SIZE
#endif

#endif
