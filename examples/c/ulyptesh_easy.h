/* The library over memory of its own: makes the table sheet for one rate, lends what a track needs, and uses both again
   from track to track. Copy this file and ulyptesh_easy.c; they need ulyptesh.h, the library and -lm.

   A UlypteshEasy serves one track at a time: give each thread one of its own. What ulyptesh.h says of the
   floating-point environment holds for every call here. */
#ifndef ULYPTESH_EASY_H
#define ULYPTESH_EASY_H

#include "ulyptesh.h"

#ifdef __cplusplus
extern "C" {
#endif

typedef struct UlypteshEasy UlypteshEasy;

/* A status is 0 (ULYPTESH_DONE), the number of a UlypteshRefusal, or one of these. */
typedef enum UlypteshEasyFailure {
    /* too little memory; nothing is wrong with the track or the settings */
    ULYPTESH_EASY_NO_MEMORY = 100,
    /* the library has another interface than the header that this was compiled with */
    ULYPTESH_EASY_OTHER_LIBRARY = 101,
    /* whatever the track, nothing would be analysed: see UlypteshSettings */
    ULYPTESH_EASY_NOTHING_ANALYSED = 102
} UlypteshEasyFailure;

/* A stretch of a track in one key. */
typedef struct UlypteshEasySegment {
    double start, end; /* in seconds */
    uint32_t key;
    float confidence;
    uint32_t windows; /* how many windows' estimates it rests on; 0 in a track without estimates */
} UlypteshEasySegment;

/* What one local window of a track tells. */
typedef struct UlypteshEasyEstimate {
    double middle; /* of the window, in seconds */
    uint32_t key;
    float confidence;
    uint32_t shapeless; /* 1 where the window's chroma has no shape, else 0 */
} UlypteshEasyEstimate;

/* A loud frame of a track. */
typedef struct UlypteshEasyFrame {
    double centre; /* in seconds */
    float chroma[ULYPTESH_PITCH_CLASSES];
    float energy;
} UlypteshEasyFrame;

/* The usual settings for tracks of this rate, every one of them; the engine is ULYPTESH_SIDE_BY_SIDE. */
UlypteshSettings ulyptesh_easy_settings(uint32_t rate);

/* For tracks of this rate, by the usual settings or by others. NULL where that fails, and the status tells why:
   settings by which no track can be analysed are refused here. Free it with ulyptesh_easy_free. */
UlypteshEasy *ulyptesh_easy_new(uint32_t rate, uint32_t *status);
UlypteshEasy *ulyptesh_easy_new_for(UlypteshSettings settings, uint32_t *status);

/* Takes all memory back; NULL is allowed. */
void ulyptesh_easy_free(UlypteshEasy *easy);

/* Analyses a track: mono samples at the rate of the settings. The status is the answer's refusal too; a track that
   tells no key is not refused, and has key 24. */
uint32_t ulyptesh_easy_analyse(
    UlypteshEasy *easy,
    const float *samples, size_t sample_count,
    UlypteshAnalyseResult *answer); /* written whole */

/* The loud frames of a track alone. The status is the answer's refusal too. */
uint32_t ulyptesh_easy_frames(
    UlypteshEasy *easy,
    const float *samples, size_t sample_count,
    UlypteshFramesResult *answer); /* written whole */

/* A segment of the last track, from 0 on; key 24 and zeros where it has none of this number. */
UlypteshEasySegment ulyptesh_easy_segment(const UlypteshEasy *easy, size_t number);

/* An estimate of the last track, from 0 on; key 24 and zeros where it has none of this number. */
UlypteshEasyEstimate ulyptesh_easy_estimate(const UlypteshEasy *easy, size_t number);

/* A loud frame of the last track, from 0 on; zeros where it has none of this number. */
UlypteshEasyFrame ulyptesh_easy_frame(const UlypteshEasy *easy, size_t number);

/* Writes the key card of the last track, as ulyptesh_write_card does; ULYPTESH_UNWRITABLE where it was refused, or its
   frames alone were asked for. */
UlypteshWritten ulyptesh_easy_write_card(
    const UlypteshEasy *easy,
    uint8_t *bytes, size_t byte_count); /* ULYPTESH_CARD_BYTES of the segments; the card, from the front */

/* Bytes of the longest key name as a C string. */
#define ULYPTESH_EASY_NAME_BYTES (ULYPTESH_LONGEST_NAME + 1)

/* Writes the name of a key into so many bytes as a C string, "none" for a number above 23, and returns it. */
const char *ulyptesh_easy_key_name(uint32_t key, char *name);

/* What a status means, in words. */
const char *ulyptesh_easy_words(uint32_t status);

#ifdef __cplusplus
}
#endif

#endif
