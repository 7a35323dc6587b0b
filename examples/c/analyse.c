/* Makes a track, has it analysed, and prints what the library tells of it.
   analyse              ends with 0, or tells why not and ends with 1
   analyse --too-fast   asks for a rate above 192,000, which is refused */
#include "ulyptesh_easy.h"

#include <math.h>
#include <stdio.h>
#include <stdlib.h>
#include <string.h>

#define RATE 8000
#define SECONDS 24
#define SECONDS_IN_C_MAJOR 14
#define SAMPLES ((size_t)RATE * SECONDS)

static const double TAU = 6.28318530717958647693;

/* Shorter frames and windows than usual, for a short track at a low rate. */
static UlypteshSettings settings_for(uint32_t rate)
{
    UlypteshSettings settings = ulyptesh_easy_settings(rate);
    settings.frame_size = 1024;
    settings.hop_size = 512;
    settings.local_window_seconds = 4.0f;
    settings.local_hop_seconds = 2.0f;
    settings.segment_confidence_threshold = 0.1f;
    settings.minimum_segment_seconds = 4.0f;
    return settings;
}

/* Whether the call was done; tells why where it was not. */
static int accepted(const char *what, uint32_t status)
{
    if (status != ULYPTESH_DONE)
        fprintf(stderr, "%s: %s (status %u)\n", what, ulyptesh_easy_words(status), (unsigned)status);
    return status == ULYPTESH_DONE;
}

/* The track: chords of C major, then of F# minor, a second each */

static const int C_MAJOR[4][3] = {{60, 64, 67}, {65, 69, 72}, {67, 71, 74}, {60, 64, 67}};
static const int F_SHARP_MINOR[4][3] = {{66, 69, 73}, {71, 74, 78}, {61, 64, 68}, {66, 69, 73}};

static double tone(int note, size_t at)
{
    double hertz = 440.0 * exp2((note - 69) / 12.0);
    return sin(TAU * hertz * (double)at / RATE);
}

static void fill_track(float *samples)
{
    for (size_t at = 0; at < SAMPLES; at++) {
        size_t second = at / RATE;
        const int *chord = second < SECONDS_IN_C_MAJOR ? C_MAJOR[second % 4] : F_SHARP_MINOR[second % 4];
        samples[at] = (float)((tone(chord[0], at) + tone(chord[1], at) + tone(chord[2], at)) / 4.0);
    }
}

/* What is told of it */

static void print_keys(const UlypteshAnalyseResult *told)
{
    char name[ULYPTESH_EASY_NAME_BYTES];
    printf("key: %s, confidence %.3f\n", ulyptesh_easy_key_name(told->key, name), told->confidence);
    printf("alternate: %s, %.3f of the track\n", ulyptesh_easy_key_name(told->alternate, name), told->coverage);
}

/* Where the chroma of the track, or of some windows, is so even that no key stands out; nothing where none is. */
static void print_shapes(const UlypteshEasy *easy, const UlypteshAnalyseResult *told)
{
    if (told->shapeless)
        printf("the chroma has no shape: its key says little\n");
    for (size_t number = 0; number < told->estimates; number++) {
        UlypteshEasyEstimate estimate = ulyptesh_easy_estimate(easy, number);
        if (estimate.shapeless)
            printf("no shape in the window around %.3f s: its key says little\n", estimate.middle);
    }
}

static void print_segments(const UlypteshEasy *easy, size_t count)
{
    char name[ULYPTESH_EASY_NAME_BYTES];
    for (size_t number = 0; number < count; number++) {
        UlypteshEasySegment segment = ulyptesh_easy_segment(easy, number);
        printf("%.3f s to %.3f s: %s, confidence %.3f, %u window%s\n", segment.start, segment.end,
               ulyptesh_easy_key_name(segment.key, name), segment.confidence, (unsigned)segment.windows,
               segment.windows == 1 ? "" : "s");
    }
}

/* The key of the whole track's chroma, and how it scores. */
static int print_scores(const float *chroma)
{
    UlypteshKeyResult found;
    float scores[ULYPTESH_KEYS];
    char name[ULYPTESH_EASY_NAME_BYTES];
    ulyptesh_key(&found, chroma, ULYPTESH_PITCH_CLASSES);
    UlypteshScoresResult scored = ulyptesh_scores(chroma, ULYPTESH_PITCH_CLASSES, scores, ULYPTESH_KEYS);
    if (!accepted("the chroma's key", found.refusal) || !accepted("the scores", scored.refusal))
        return 0;
    printf("by its chroma alone: %s, score %.3f, second %.3f\n", ulyptesh_easy_key_name(found.key, name),
           scores[found.key], found.second);
    return 1;
}

static int print_card(const UlypteshEasy *easy)
{
    uint8_t card[ULYPTESH_CARD_BYTES(ULYPTESH_MOST_CARD_SEGMENTS)];
    UlypteshWritten written = ulyptesh_easy_write_card(easy, card, sizeof card);
    if (!accepted("the card", written.refusal))
        return 0;
    printf("card:");
    for (size_t at = 0; at < written.length; at++)
        printf(" %02x", card[at]);
    printf("\n");
    return 1;
}

static int print_first_second(UlypteshEasy *easy, const float *samples)
{
    UlypteshFramesResult told;
    if (!accepted("the frames", ulyptesh_easy_frames(easy, samples, RATE, &told)))
        return 0;
    printf("the first second: %u loud frames, the first around %.3f s\n", (unsigned)told.count,
           ulyptesh_easy_frame(easy, 0).centre);
    return 1;
}

static int run(UlypteshEasy *easy)
{
    static float samples[SAMPLES];
    UlypteshAnalyseResult told;
    fill_track(samples);
    if (!accepted("the analysis", ulyptesh_easy_analyse(easy, samples, SAMPLES, &told)))
        return 0;
    print_keys(&told);
    print_shapes(easy, &told);
    print_segments(easy, told.segments);
    return print_scores(told.chroma) && print_card(easy) && print_first_second(easy, samples);
}

int main(int count, char **words)
{
    int too_fast = count == 2 && strcmp(words[1], "--too-fast") == 0;
    if (count > 1 && !too_fast) {
        fprintf(stderr, "usage: analyse [--too-fast]\n");
        return 2;
    }
    uint32_t rate = too_fast ? 192001 : RATE;
    uint32_t status;
    UlypteshEasy *easy = ulyptesh_easy_new_for(settings_for(rate), &status);
    int done = accepted("the settings", status) && run(easy);
    ulyptesh_easy_free(easy);
    return done ? EXIT_SUCCESS : EXIT_FAILURE;
}
