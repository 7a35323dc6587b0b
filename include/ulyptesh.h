/* Ulyptesh: the musical key of a track. For Linux on x86-64 (System V ABI) and on aarch64 (AAPCS64). Link with
   libulyptesh.a, or with libulyptesh.so where host/install has put one.

   The calls are proved for one floating-point environment: round to nearest, ties to even, with subnormal numbers kept
   (neither flush to zero nor denormals are zero). A program starts so, and a thread starts as the one that made it was.
   Audio hosts often set flush to zero on their audio threads, and -ffast-math may set it for a whole program: whoever
   sets it must reset it around a call. The library neither reads nor sets it. ulyptesh_read_card,
   ulyptesh_write_packed_card, ulyptesh_add_card and ulyptesh_remove_card use no floats and hold in any floating-point
   environment.

   The library allocates nothing, keeps no pointer and has no state. A slice is a pointer and a count of entries, and
   may be NULL where the count is 0. A slice that is written to overlaps no other, and the answer overlaps no slice. A
   sheet is only read, so threads may share one; each thread lends rows of its own. "From the front" means: entry 0
   first, and all entries behind those that are written stay as they were. An analysis takes up to 96 KiB of the
   caller's stack.

   An answer of more than 16 bytes is written behind the call's first pointer, which the call also returns.

   A key's number is its tonic (0 for C to 11 for B) where it is major, and 12 + tonic where it is minor.

   A chroma has no shape where its numbers are so nearly equal, or all so small, that no key stands out: in at least one
   of its 96 correlations (24 keys, four profiles each) the divisor, the root of the product of the two energies, was
   below 2^-23 or a NaN, and 2^-23 stood in for it. One with a NaN or an infinity is such a chroma. Its key, confidence
   and scores are answered as for any other, and say little. Cards do not tell it. */
#ifndef ULYPTESH_H
#define ULYPTESH_H

#include <stddef.h>
#include <stdint.h>

#if SIZE_MAX != 0xffffffffffffffff
#error "ulyptesh.h: the library is for machines whose size_t has 64 bits"
#endif

#ifdef __cplusplus
extern "C" {
#endif

/* The number of the interface; it grows when a struct, a parameter or a meaning changes, and ulyptesh_abi answers the
   library's own. A new call leaves it, so a program that loads the library at run time compares the two, and looks up a
   call that is newer by its name. */
#define ULYPTESH_ABI 5
/* Numbers in a chroma, from C upward. */
#define ULYPTESH_PITCH_CLASSES 12
/* Keys, and so scores of a chroma. */
#define ULYPTESH_KEYS 24
/* The number of a key that is missing. */
#define ULYPTESH_NO_KEY 24
/* Bytes of the longest key name, "C# major"; a name has no zero byte behind it. */
#define ULYPTESH_LONGEST_NAME 8
/* The longest track. */
#define ULYPTESH_LONGEST_TRACK_SECONDS 86400
/* The most segments on a card. A card has layout 1 where that holds it, with ends up to 14,400,000 ms, and else layout
   2, with ends up to 86,400,000 ms; its first four bits say which. */
#define ULYPTESH_MOST_CARD_SEGMENTS 4095
/* The most segments on a card of layout 1. */
#define ULYPTESH_LAYOUT_1_SEGMENTS 1023
/* Bytes of a card with so many segments in each layout; at most 4,994 and 21,506. */
#define ULYPTESH_LAYOUT_1_BYTES(segments) ((49 + 39 * (size_t)(segments) + 7) / 8)
#define ULYPTESH_LAYOUT_2_BYTES(segments) ((51 + 42 * (size_t)(segments) + 7) / 8)
/* Bytes that hold the card of so many segments in either layout. */
#define ULYPTESH_CARD_BYTES(segments) ULYPTESH_LAYOUT_2_BYTES(segments)
/* Rows that suffice for a card of so many bytes, 7 or more, in either layout. */
#define ULYPTESH_CARD_SEGMENTS(bytes) ((8 * (size_t)(bytes) - 49) / 39)
/* A set of cards: so many places, of so many bytes each; place p is the bytes from p * ULYPTESH_PLACE_BYTES on. A place
   is free where all its bytes are 0, else it has a card at its front and zeros behind it. The longest card that fits
   has 511 bytes: 96 segments in layout 2, or 103 in layout 1 with 509. */
#define ULYPTESH_SET_PLACES 1024
#define ULYPTESH_PLACE_BYTES 512
/* Bytes of a whole set. */
#define ULYPTESH_SET_BYTES ((size_t)ULYPTESH_SET_PLACES * ULYPTESH_PLACE_BYTES)
/* The summary of a set: so many numbers. Those before ULYPTESH_KEYS are, by key number, the milliseconds of the key's
   segments on all cards of the set. An empty set and its summary are all zeros. */
#define ULYPTESH_SUMMARY_NUMBERS 26
/* Where a summary has the number of cards, and how many of them have no key. */
#define ULYPTESH_SUMMARY_CARDS 24
#define ULYPTESH_SUMMARY_WITHOUT_KEY 25

/* Why a call refuses. The first of 1, 2, 3, 13, 4, 5, 6, 7 and 8 that applies is answered, in this order; where a card
   is read the first of 20 to 24, and where a set is changed the first of 33, 20, 21, 22, 23, 30, 31 and 32. All but 9
   write nothing but the answer. Numbers that are missing are not given. */
typedef enum UlypteshRefusal {
    /* not refused; a track that tells no key has this too, with key 24 */
    ULYPTESH_DONE = 0,
    /* the rate is above 192,000 */
    ULYPTESH_RATE_TOO_HIGH = 1,
    /* the frame size is above 65,536 or the hop size above 1,048,576 */
    ULYPTESH_SIZE_TOO_LARGE = 2,
    /* one of the five float settings is not finite */
    ULYPTESH_SETTING_NOT_FINITE = 3,
    /* there are more samples than 86,400 times the rate */
    ULYPTESH_TRACK_TOO_LONG = 4,
    /* analyse: the local hop is below half a second */
    ULYPTESH_LOCAL_HOP_TOO_SHORT = 5,
    /* the sheet's rate, notes or frame size are not the call's */
    ULYPTESH_SHEET_OF_ANOTHER_CALL = 6,
    /* the sheet is not well formed: see UlypteshSheetHead */
    ULYPTESH_SHEET_NOT_WELL_FORMED = 7,
    /* fewer rows or work numbers are lent than the track needs */
    ULYPTESH_TOO_FEW_ROWS = 8,
    /* a loud frame's energy or chroma is not finite; the loud frames before it stand in their rows */
    ULYPTESH_FRAME_NOT_FINITE = 9,
    /* key name: a number above 23; cards: a card rule is broken, or the segment slices are not equally long */
    ULYPTESH_UNWRITABLE = 11,
    /* fewer bytes are lent than the name or card has, and 11 does not apply */
    ULYPTESH_TOO_FEW_BYTES = 12,
    /* analyse, frames: the engine is neither 0 nor 1 */
    ULYPTESH_UNKNOWN_ENGINE = 13,
    /* scores, key: a chroma not of 12 numbers, or room for fewer than 24 scores */
    ULYPTESH_WRONG_LENGTH = 18,
    /* read card, sets: under 7 bytes or, where the layout is known, another length than the segment count gives */
    ULYPTESH_CARD_WRONG_LENGTH = 20,
    /* read card, sets: the layout is neither 1 nor 2 */
    ULYPTESH_CARD_UNKNOWN_LAYOUT = 21,
    /* read card, sets: a card rule is broken, or a bit that fills the last byte is set */
    ULYPTESH_CARD_BROKEN = 22,
    /* read card, sets: the layout is 2, and layout 1 would have held the card */
    ULYPTESH_CARD_NEEDLESS_LAYOUT = 23,
    /* read card: fewer segment rows are lent than the card has segments */
    ULYPTESH_TOO_FEW_CARD_ROWS = 24,
    /* sets: the card is longer than a place, 512 bytes */
    ULYPTESH_CARD_TOO_LONG = 30,
    /* add card: no place is free */
    ULYPTESH_SET_FULL = 31,
    /* remove card: no place has a card of these bytes */
    ULYPTESH_NO_SUCH_CARD = 32,
    /* sets: the set or the summary has another size, a place is neither free nor a card with zeros behind it, or the
       summary is not what the set's cards give */
    ULYPTESH_SET_NOT_TRUE = 33
} UlypteshRefusal;

/* How the Goertzel magnitudes of a frame's notes are worked out. Both engines give the same numbers, bit for bit, so
   every answer is the same; only the time differs. */
typedef enum UlypteshEngine {
    /* all notes side by side: the faster one, which settings that are zeroed first have */
    ULYPTESH_SIDE_BY_SIDE = 0,
    /* four notes at a time, and the odd ones at the end singly, as in the Rust that was ported */
    ULYPTESH_FOUR_AT_A_TIME = 1
} UlypteshEngine;

/* What a call is asked. Nothing is analysed, without a refusal, where the rate or the hop size is 0, the frame size is
   below 32 or above the samples, the lowest note is above the highest, or the local window or hop is not above 0; this
   is judged after 13 and before 4. */
typedef struct UlypteshSettings {
    uint32_t rate; /* samples a second */
    size_t frame_size; /* samples in a frame */
    size_t hop_size; /* samples from the start of a frame to the next one's */
    uint8_t minimum_midi_note, maximum_midi_note;
    float local_window_seconds; /* a window's length */
    float local_hop_seconds; /* from the start of a window to the next one's; at least 0.5 */
    float alternate_coverage_threshold; /* the part of the track from which an alternate is named; 0: never */
    float segment_confidence_threshold; /* the confidence from which a window of another key starts a segment */
    float minimum_segment_seconds; /* a shorter segment is joined to a neighbour */
    uint32_t engine; /* a UlypteshEngine; any other number is refused */
} UlypteshSettings;

/* What a table sheet was made for: the call's rate, notes and frame size. Row k of a sheet is for the lowest note plus
   k. A sheet is well formed where its slices have the lengths and entries that are told at the calls, and has no more
   rows of either kind than notes. examples/c/ulyptesh_easy.c makes one. */
typedef struct UlypteshSheetHead {
    uint32_t rate;
    uint8_t minimum_midi_note, maximum_midi_note;
    size_t frame_size;
} UlypteshSheetHead;

/* refusal: 0 or the number of a UlypteshRefusal, here and below. */
typedef struct UlypteshScoresResult {
    uint32_t refusal;
    uint32_t shapeless; /* 1 where the chroma has no shape, else 0, as where the call is refused */
} UlypteshScoresResult;

/* The key of a chroma: the one with the highest score, or its relative key where that one is second by at most 0.05 and
   its tonic is more than 1.2 times as strong. Refused: key 24 and zeros. Where no score is a number, as for a chroma
   with a NaN or an infinity or one whose sum overflows, the key is C major. */
typedef struct UlypteshKeyResult {
    uint32_t refusal;
    uint32_t key;
    float best; /* the highest of the 24 scores: where the relative key is taken, not its own but the other key's */
    float second; /* the next one; as best it leaves NaNs out, and is -infinity where no score is left */
    float confidence; /* in the highest score over the next one, from 0 to 1; a NaN where no score is a number */
    uint32_t shapeless; /* 1 where the chroma has no shape, else 0 */
} UlypteshKeyResult;

/* length: how many bytes were written; 0 where the call is refused. */
typedef struct UlypteshWritten {
    uint32_t refusal;
    size_t length;
} UlypteshWritten;

/* position: of the frame that refusal 9 is about, else 0. count: how many frame rows are written. */
typedef struct UlypteshFramesResult {
    uint32_t refusal;
    uint64_t position;
    uint64_t count;
} UlypteshFramesResult;

/* What is told of a track. Without a key (refused, or none to tell) the three keys are 24 and the floats 0. Where it is
   said that a NaN is not ruled out, none was ever met: the frames that it rests on are finite. */
typedef struct UlypteshAnalyseResult {
    uint32_t refusal;
    uint64_t position; /* of the frame that refusal 9 is about, else 0 */
    uint32_t key, dsp_key; /* the key that is reported; the two are the same */
    uint32_t alternate; /* another key that much of the track is in, or 24 */
    float coverage; /* the part of the track that is in the alternate, or 0 */
    float confidence; /* of the key, from 0 to 1; a NaN is not ruled out */
    uint32_t shapeless; /* 1 where the track's chroma has no shape, else 0, as without a key */
    uint64_t frames, estimates, segments; /* how many rows of each kind are written */
    float chroma[ULYPTESH_PITCH_CLASSES]; /* of the whole track; a NaN is not ruled out */
} UlypteshAnalyseResult;

/* What a card says. Without a key (refused, or an empty card) the three keys are 24, and all other numbers but the
   refusal 0. */
typedef struct UlypteshCardRead {
    uint32_t refusal;
    uint32_t key, dsp_key; /* the key of the track; the key by profiles alone */
    uint32_t alternate; /* another key that much of the track is in, or 24 */
    uint32_t coverage; /* the part of the track that is in the alternate, in thousandths, or 0 */
    uint32_t confidence; /* of the key, in thousandths */
    uint64_t segments; /* how many rows are written */
} UlypteshCardRead;

/* place: the place of the set that was changed, from 0; 0 where the call is refused. */
typedef struct UlypteshSetChange {
    uint32_t refusal;
    uint32_t place;
} UlypteshSetChange;

/* Writes the loud frames of a track. P, the frame positions, is (samples - frame size) / hop size, rounded down,
   plus 1. */
UlypteshFramesResult *ulyptesh_frames(
    UlypteshFramesResult *answer, /* written whole */
    UlypteshSettings settings,
    UlypteshSheetHead head,
    const float *samples, size_t sample_count, /* mono; at most 86,400 times the rate */
    const float *window, size_t window_count, /* frame size; 0 to 1: the window of a frame */
    const float *coefficients, size_t coefficient_count, /* Goertzel rows, at most a note each; -2 to 2 */
    const float *weights, size_t weight_count, /* as many; finite and above 0 */
    const uint32_t *lengths, size_t length_count, /* constant-Q rows, at most a note each; 4 to the rate */
    const float *q_coefficients, size_t q_coefficient_count, /* as many as lengths; -2 to 2 */
    const float *q_windows, size_t q_window_count, /* the sum of lengths; 0 to 1: the rows' windows, end to end */
    double *centres, size_t centre_count, /* P; the loud frames' centres in seconds, from the front */
    float (*values)[ULYPTESH_PITCH_CLASSES], size_t value_count, /* P; their chromas, finite, from the front */
    float *energies, size_t energy_count); /* P; their energies, finite, from the front */

/* Analyses a track. P and what is read are as above. W, the windows, is how many of the starts 0, hop, hop + hop and so
   on (f64 sums) lie a window or more before the end; 1 where the duration is below window + hop. The segments' counts
   add up to the answer's estimates, so the one segment of a track without estimates has 0; cards do not carry them. */
UlypteshAnalyseResult *ulyptesh_analyse(
    UlypteshAnalyseResult *answer, /* written whole */
    UlypteshSettings settings,
    UlypteshSheetHead head,
    const float *samples, size_t sample_count,
    const float *window, size_t window_count,
    const float *coefficients, size_t coefficient_count,
    const float *weights, size_t weight_count,
    const uint32_t *lengths, size_t length_count,
    const float *q_coefficients, size_t q_coefficient_count,
    const float *q_windows, size_t q_window_count,
    double *centres, size_t centre_count, /* P; the loud frames' centres in seconds, from the front */
    float (*values)[ULYPTESH_PITCH_CLASSES], size_t value_count, /* P; their chromas, from the front */
    float *energies, size_t energy_count, /* P; their energies, from the front */
    float *work, size_t work_count, /* P; zeros from the front, one to a loud frame, unless 9 is answered */
    double *middles, size_t middle_count, /* W; the estimates' middles in seconds, from the front */
    uint8_t *numbers, size_t number_count, /* W; their keys, from the front */
    float *certainties, size_t certainty_count, /* W; their confidences, from the front; a NaN is not ruled out */
    uint8_t *shapeless, size_t shapeless_count, /* W; 1 for each whose chroma has no shape, else 0, from the front */
    double *starts, size_t start_count, /* W; the segments' starts in seconds, then a zero for each one joined away */
    double *ends, size_t end_count, /* W; their ends in seconds, then zeros likewise */
    uint8_t *keys, size_t key_count, /* W; their keys, then zeros likewise */
    float *confidences, size_t confidence_count, /* W; their confidences, then zeros; a NaN is not ruled out */
    uint32_t *counts, size_t count_count); /* W; how many windows' estimates each rests on, then zeros likewise */

/* Writes the scores of the 24 keys of a chroma. */
UlypteshScoresResult ulyptesh_scores(
    const float *chroma, size_t chroma_count, /* 12, exactly */
    float *scores, size_t score_count); /* 24; the scores by key number, from the front; NaNs as told above */

/* The key of a chroma. */
UlypteshKeyResult *ulyptesh_key(
    UlypteshKeyResult *answer, /* written whole */
    const float *chroma, size_t chroma_count); /* 12, exactly */

/* Writes the name of a key, as "C# minor". */
UlypteshWritten ulyptesh_write_key_name(
    uint32_t number, /* at most 23 */
    uint8_t *bytes, size_t byte_count); /* the name's length, at most 8; the name, from the front */

/* Writes the key card of an analysis; README.md, which host/install puts into share/doc/ulyptesh, has its fields and
   rules. Ends are written in milliseconds, rounded down, so that none lies after the audio; two in one millisecond, and
   one below 0, are refused. Of the segments, lend what is written: the answer's count of each slice. */
UlypteshWritten ulyptesh_write_card(
    uint32_t key, uint32_t dsp_key, uint32_t alternate, /* 24 for one that is missing */
    float coverage, float confidence,
    const double *starts, size_t start_count, /* in seconds, at most 4,095; each is the end before it, the first is 0 */
    const double *ends, size_t end_count, /* as many */
    const uint8_t *keys, size_t key_count, /* as many */
    const float *confidences, size_t confidence_count, /* as many */
    uint8_t *bytes, size_t byte_count); /* ULYPTESH_CARD_BYTES of the segments; the card, from the front */

/* Reads a key card. The room for its segments is the shortest of the four slices that are written to. With 4,095 rows,
   or with ULYPTESH_CARD_SEGMENTS of its bytes, 24 never comes. A card that a version before 0.2.0 wrote may end up to
   half a millisecond after the audio. */
UlypteshCardRead *ulyptesh_read_card(
    UlypteshCardRead *answer, /* written whole */
    const uint8_t *bytes, size_t byte_count, /* the card, exactly */
    uint32_t *starts, size_t start_count, /* a row for each segment; their starts in milliseconds, from the front */
    uint32_t *ends, size_t end_count, /* as many; their ends in milliseconds, from the front */
    uint8_t *keys, size_t key_count, /* as many; their keys, from the front */
    uint16_t *confidences, size_t confidence_count); /* as many; their confidences in thousandths, from the front */

/* Writes the key card of such numbers: what ulyptesh_read_card has read gives the bytes that it was read from. A number
   that is too large for its field breaks a card rule. Of the segments, lend what was written. */
UlypteshWritten ulyptesh_write_packed_card(
    uint32_t key, uint32_t dsp_key, uint32_t alternate, /* 24 for one that is missing */
    uint32_t coverage, uint32_t confidence, /* in thousandths, not the analysis' floats */
    const uint32_t *starts, size_t start_count, /* in ms, at most 4,095; each is the end before it, the first is 0 */
    const uint32_t *ends, size_t end_count, /* as many */
    const uint8_t *keys, size_t key_count, /* as many */
    const uint16_t *confidences, size_t confidence_count, /* as many; in thousandths */
    uint8_t *bytes, size_t byte_count); /* ULYPTESH_CARD_BYTES of the segments; the card, from the front */

/* Puts a card into the lowest free place of a set, and its numbers into the summary: each segment's milliseconds count
   for its key. A card that is there already is put there once more. Each call on a set first reads all of it and works
   its summary out afresh, so whoever kept the two need not be trusted: where they differ, that is 33. After a call that
   is not refused the summary is again what working it out afresh gives. */
UlypteshSetChange ulyptesh_add_card(
    uint8_t *set, size_t set_count, /* ULYPTESH_SET_BYTES, exactly; one place changes */
    uint64_t *summary, size_t summary_count, /* ULYPTESH_SUMMARY_NUMBERS, exactly */
    const uint8_t *card, size_t card_count); /* the card, exactly */

/* Takes a card out again: the lowest place with the same bytes becomes zeros, and the card's numbers leave the summary.
   The others stay where they are. */
UlypteshSetChange ulyptesh_remove_card(
    uint8_t *set, size_t set_count, /* as above */
    uint64_t *summary, size_t summary_count, /* as above */
    const uint8_t *card, size_t card_count); /* the card, exactly; a copy, where it is the set's own */

/* The number of the library's interface: ULYPTESH_ABI where this header is the library's own. */
uint32_t ulyptesh_abi(void);

/* The library was compiled for structs of these sizes: with another one this header does not compile. */
#define ULYPTESH_IS_OF(type, bytes) \
    typedef char type##_has_another_size_in_the_library[sizeof(type) == (bytes) ? 1 : -1]
ULYPTESH_IS_OF(UlypteshSettings, 56);
ULYPTESH_IS_OF(UlypteshSheetHead, 16);
ULYPTESH_IS_OF(UlypteshScoresResult, 8);
ULYPTESH_IS_OF(UlypteshKeyResult, 24);
ULYPTESH_IS_OF(UlypteshWritten, 16);
ULYPTESH_IS_OF(UlypteshFramesResult, 24);
ULYPTESH_IS_OF(UlypteshAnalyseResult, 112);
ULYPTESH_IS_OF(UlypteshCardRead, 32);
ULYPTESH_IS_OF(UlypteshSetChange, 8);
#undef ULYPTESH_IS_OF

#ifdef __cplusplus
}
#endif

#endif
