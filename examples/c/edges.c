/* Tests of the calls at their edges, and of ulyptesh_easy, which host/c-example compiles with `scarce` for its calloc.
   edges NAME   one test: ends with 0 where it passes, and with 1 where it fails
   edges        all of them */
#include "ulyptesh_easy.h"

#include <fenv.h>
#include <math.h>
#include <stdio.h>
#include <stdlib.h>
#include <string.h>

#define RATE 8000
/* Samples of a short track and of a long one. */
#define SHORT ((size_t)RATE * 12)
#define LONG ((size_t)RATE * 30)
/* Enough rows of every kind for the short one. */
#define ROOM 64

static float tone[LONG];
static const UlypteshSheetHead NO_HEAD = {0, 0, 0, 0};

/* How many allocations succeed before one fails; below 0 all do. */
static int allocations = -1;

void *scarce(size_t count, size_t size);

void *scarce(size_t count, size_t size)
{
    if (allocations == 0)
        return NULL;
    if (allocations > 0)
        allocations--;
    return calloc(count, size);
}

/* Whether a fact holds; names it where it does not. */
static int holds(int fact, const char *words)
{
    if (!fact)
        fprintf(stderr, "edges: not so: %s\n", words);
    return fact;
}

#define HOLDS(fact) holds((fact) ? 1 : 0, #fact)

static UlypteshSettings usual(void)
{
    return ulyptesh_easy_settings(RATE);
}

static UlypteshSheetHead head_for(UlypteshSettings settings)
{
    UlypteshSheetHead head = NO_HEAD;
    head.rate = settings.rate;
    head.minimum_midi_note = settings.minimum_midi_note;
    head.maximum_midi_note = settings.maximum_midi_note;
    head.frame_size = settings.frame_size;
    return head;
}

/* An analysis and the frames of a track whose sheet has no slice but the window, and for which nothing is lent. */
static UlypteshAnalyseResult analysed(UlypteshSettings settings, UlypteshSheetHead head, size_t samples, size_t window)
{
    const float *track = samples > 0 ? tone : NULL, *values = window > 0 ? tone : NULL;
    UlypteshAnalyseResult told;
    ulyptesh_analyse(&told, settings, head, track, samples, values, window, NULL, 0, NULL, 0, NULL, 0, NULL, 0, NULL, 0,
                     NULL, 0, NULL, 0, NULL, 0, NULL, 0, NULL, 0, NULL, 0, NULL, 0, NULL, 0, NULL, 0, NULL, 0, NULL, 0,
                     NULL, 0, NULL, 0);
    return told;
}

static UlypteshFramesResult heard(UlypteshSettings settings, UlypteshSheetHead head, size_t samples, size_t window)
{
    const float *track = samples > 0 ? tone : NULL, *values = window > 0 ? tone : NULL;
    UlypteshFramesResult told;
    ulyptesh_frames(&told, settings, head, track, samples, values, window, NULL, 0, NULL, 0, NULL, 0, NULL, 0, NULL, 0,
                    NULL, 0, NULL, 0, NULL, 0);
    return told;
}

/* The number of the header is the library's. */
static int abi(void)
{
    return HOLDS(ulyptesh_abi() == ULYPTESH_ABI);
}

/* Every slice NULL with count 0, in every call that takes one. */
static int no_slices(void)
{
    UlypteshAnalyseResult told = analysed(usual(), head_for(usual()), 0, 0);
    UlypteshFramesResult frames = heard(usual(), head_for(usual()), 0, 0);
    UlypteshKeyResult found;
    ulyptesh_key(&found, NULL, 0);
    UlypteshWritten card = ulyptesh_write_card(ULYPTESH_NO_KEY, ULYPTESH_NO_KEY, ULYPTESH_NO_KEY, 0.0f, 0.0f,
                                               NULL, 0, NULL, 0, NULL, 0, NULL, 0, NULL, 0);
    UlypteshWritten packed = ulyptesh_write_packed_card(ULYPTESH_NO_KEY, ULYPTESH_NO_KEY, ULYPTESH_NO_KEY, 0, 0,
                                                        NULL, 0, NULL, 0, NULL, 0, NULL, 0, NULL, 0);
    UlypteshCardRead read;
    ulyptesh_read_card(&read, NULL, 0, NULL, 0, NULL, 0, NULL, 0, NULL, 0);
    UlypteshScoresResult scored = ulyptesh_scores(NULL, 0, NULL, 0);
    UlypteshSetChange added = ulyptesh_add_card(NULL, 0, NULL, 0, NULL, 0),
                      taken = ulyptesh_remove_card(NULL, 0, NULL, 0, NULL, 0);
    return HOLDS(told.refusal == ULYPTESH_DONE && told.key == ULYPTESH_NO_KEY && told.segments == 0)
        && HOLDS(told.shapeless == 0 && found.shapeless == 0 && scored.shapeless == 0)
        && HOLDS(frames.refusal == ULYPTESH_DONE && frames.count == 0)
        && HOLDS(found.refusal == ULYPTESH_WRONG_LENGTH && found.key == ULYPTESH_NO_KEY)
        && HOLDS(scored.refusal == ULYPTESH_WRONG_LENGTH)
        && HOLDS(ulyptesh_write_key_name(0, NULL, 0).refusal == ULYPTESH_TOO_FEW_BYTES)
        && HOLDS(card.refusal == ULYPTESH_TOO_FEW_BYTES && card.length == 0)
        && HOLDS(packed.refusal == ULYPTESH_TOO_FEW_BYTES && packed.length == 0)
        && HOLDS(read.refusal == ULYPTESH_CARD_WRONG_LENGTH && read.key == ULYPTESH_NO_KEY && read.segments == 0)
        && HOLDS(added.refusal == ULYPTESH_SET_NOT_TRUE && added.place == 0)
        && HOLDS(taken.refusal == ULYPTESH_SET_NOT_TRUE && taken.place == 0);
}

/* A note above the rate has no rows in a sheet, so all slices of its sheet but the window are of no entries. */
static UlypteshSettings rowless(void)
{
    UlypteshSettings settings = usual();
    settings.minimum_midi_note = settings.maximum_midi_note = 127;
    for (size_t at = 0; at < settings.frame_size; at++)
        tone[at] = 0.5f;
    return settings;
}

/* Such a sheet, nothing lent to be written, and the card of no segments. */
static int some_slices(void)
{
    UlypteshSettings settings = rowless();
    UlypteshSheetHead head = head_for(settings);
    uint8_t bytes[ULYPTESH_CARD_BYTES(0)];
    UlypteshWritten card = ulyptesh_write_card(ULYPTESH_NO_KEY, ULYPTESH_NO_KEY, ULYPTESH_NO_KEY, 0.0f, 0.0f,
                                               NULL, 0, NULL, 0, NULL, 0, NULL, 0, bytes, sizeof bytes);
    return HOLDS(analysed(settings, head, SHORT, 0).refusal == ULYPTESH_SHEET_NOT_WELL_FORMED)
        && HOLDS(heard(settings, head, SHORT, 0).refusal == ULYPTESH_SHEET_NOT_WELL_FORMED)
        && HOLDS(analysed(settings, head, SHORT, settings.frame_size).refusal == ULYPTESH_TOO_FEW_ROWS)
        && HOLDS(heard(settings, head, SHORT, settings.frame_size).refusal == ULYPTESH_TOO_FEW_ROWS)
        && HOLDS(card.refusal == ULYPTESH_DONE && card.length == sizeof bytes);
}

/* Rows for a track; those for shapes and for counts of windows are 9 before each analysis. */
static double centres[ROOM], middles[ROOM], starts[ROOM], ends[ROOM];
static float values[ROOM][ULYPTESH_PITCH_CLASSES], energies[ROOM], work[ROOM], certainties[ROOM], confidences[ROOM];
static uint8_t numbers[ROOM], shapeless[ROOM], keys[ROOM];
static uint32_t counts[ROOM];

/* An analysis over these rows, of which so many are for shapes and so many for counts, by a sheet of Goertzel rows
   alone. */
static UlypteshAnalyseResult analysed_by(UlypteshSettings settings, const float *samples, size_t sample_count,
                                         const float *window, const float *coefficients, const float *weights,
                                         size_t rows, size_t shapeless_rows, size_t count_rows)
{
    UlypteshAnalyseResult told;
    memset(shapeless, 9, sizeof shapeless);
    for (size_t at = 0; at < ROOM; at++)
        counts[at] = 9;
    ulyptesh_analyse(&told, settings, head_for(settings), samples, sample_count, window, settings.frame_size,
                     coefficients, rows, weights, rows, NULL, 0, NULL, 0, NULL, 0, centres, ROOM, values, ROOM,
                     energies, ROOM, work, ROOM, middles, ROOM, numbers, ROOM, certainties, ROOM, shapeless,
                     shapeless_rows, starts, ROOM, ends, ROOM, keys, ROOM, confidences, ROOM,
                     count_rows > 0 ? counts : NULL, count_rows);
    return told;
}

/* Whether so many rows for shapes have this mark, and those behind them stay. */
static int marked(size_t count, uint8_t mark)
{
    int same = 1;
    for (size_t at = 0; at < ROOM; at++)
        same = same && shapeless[at] == (at < count ? mark : 9);
    return same;
}

/* Whether so many rows for counts hold this number, and those behind them stay. */
static int counted(size_t count, uint32_t windows)
{
    int same = 1;
    for (size_t at = 0; at < ROOM; at++)
        same = same && counts[at] == (at < count ? windows : 9);
    return same;
}

/* Such a sheet, and room for a track: its loud frames are found, and it tells no key. */
static int no_rows(void)
{
    UlypteshSettings settings = rowless();
    UlypteshFramesResult frames;
    ulyptesh_frames(&frames, settings, head_for(settings), tone, SHORT, tone, settings.frame_size, NULL, 0, NULL, 0,
                    NULL, 0, NULL, 0, NULL, 0, centres, ROOM, values, ROOM, energies, ROOM);
    UlypteshAnalyseResult told = analysed_by(settings, tone, SHORT, tone, NULL, NULL, 0, ROOM, ROOM);
    return HOLDS(frames.refusal == ULYPTESH_DONE && frames.count > 0)
        && HOLDS(told.refusal == ULYPTESH_DONE && told.frames == frames.count && told.key == ULYPTESH_NO_KEY)
        && HOLDS(told.shapeless == 0 && marked(0, 0) && counted(0, 0));
}

/* Half a minute that is equally strong in twelve notes, or stronger in some: a click ends each frame, which all notes
   hear alike, and one before it they do not. It has four windows and one segment, over so many rows for their shapes
   and for the windows behind it. */
static UlypteshAnalyseResult analysed_clicks(float before_last, size_t shapeless_rows, size_t count_rows,
                                             uint32_t engine)
{
    static const float COEFFICIENTS[12] = {2, 1, 1, 0, 1.5f, 0, -1, 1.5f, -1, 0, -2, 0};
    static const float WEIGHTS[12] = {1, 1, 1, 1, 1, 1, 1, 1, 1, 1, 1, 1};
    static float clicks[LONG], window[4096];
    UlypteshSettings settings = usual();
    settings.hop_size = settings.frame_size;
    settings.minimum_midi_note = 60;
    settings.maximum_midi_note = 71;
    settings.engine = engine;
    for (size_t at = 0; at < settings.frame_size; at++)
        window[at] = 1.0f;
    for (size_t end = settings.frame_size; end <= LONG; end += settings.frame_size) {
        clicks[end - 1] = 0.5f;
        clicks[end - 2] = before_last;
    }
    return analysed_by(settings, clicks, LONG, window, COEFFICIENTS, WEIGHTS, 12, shapeless_rows, count_rows);
}

/* An even track and its windows have no shape, one that is not even has one, and a row too few is refused. */
static int track_shapes(void)
{
    UlypteshAnalyseResult told = analysed_clicks(0.0f, 4, ROOM, ULYPTESH_SIDE_BY_SIDE);
    int done = HOLDS(told.refusal == ULYPTESH_DONE && told.key < ULYPTESH_NO_KEY && told.estimates == 4)
        && HOLDS(told.shapeless == 1 && marked(4, 1));
    told = analysed_clicks(0.25f, ROOM, ROOM, ULYPTESH_SIDE_BY_SIDE);
    done = done && HOLDS(told.refusal == ULYPTESH_DONE && told.key < ULYPTESH_NO_KEY && told.estimates == 4)
        && HOLDS(told.shapeless == 0 && marked(4, 0));
    told = analysed_clicks(0.0f, 3, ROOM, ULYPTESH_SIDE_BY_SIDE);
    return done && HOLDS(told.refusal == ULYPTESH_TOO_FEW_ROWS && told.key == ULYPTESH_NO_KEY)
        && HOLDS(told.shapeless == 0 && marked(0, 0) && counted(0, 0));
}

/* Whether a track is refused for want of rows, with so many for shapes and so many for counts, and none is written. */
static int too_few_rows(size_t shapeless_rows, size_t count_rows)
{
    UlypteshAnalyseResult told = analysed_clicks(0.25f, shapeless_rows, count_rows, ULYPTESH_SIDE_BY_SIDE);
    return HOLDS(told.refusal == ULYPTESH_TOO_FEW_ROWS && told.key == ULYPTESH_NO_KEY && told.segments == 0)
        && HOLDS(marked(0, 0) && counted(0, 0));
}

/* All four windows stand behind the segment, over a number for each of them and over more; a number too few is refused,
   alone and beside other rows, and so is none. */
static int track_windows(void)
{
    int done = 1;
    for (size_t rows = 4; rows <= ROOM; rows += ROOM - 4) {
        UlypteshAnalyseResult told = analysed_clicks(0.25f, ROOM, rows, ULYPTESH_SIDE_BY_SIDE);
        done = done && HOLDS(told.refusal == ULYPTESH_DONE && told.estimates == 4 && told.segments == 1)
            && HOLDS(counted(1, 4));
    }
    return done && too_few_rows(ROOM, 3) && too_few_rows(3, 3) && too_few_rows(ROOM, 0);
}

/* A sheet for 44,100 Hz is refused at 48,000. */
static int other_sheet(void)
{
    UlypteshSheetHead head = head_for(ulyptesh_easy_settings(44100));
    UlypteshSettings settings = ulyptesh_easy_settings(48000);
    return HOLDS(analysed(settings, head, SHORT, 0).refusal == ULYPTESH_SHEET_OF_ANOTHER_CALL)
        && HOLDS(heard(settings, head, SHORT, 0).refusal == ULYPTESH_SHEET_OF_ANOTHER_CALL);
}

/* A number that is no engine. */
#define NO_ENGINE 2

/* A track that is analysed with either engine is refused with another number, and no row is written. */
static int engine_refused(void)
{
    UlypteshAnalyseResult told = analysed_clicks(0.0f, ROOM, ROOM, ULYPTESH_FOUR_AT_A_TIME);
    int done = HOLDS(told.refusal == ULYPTESH_DONE && told.frames > 0 && energies[0] > 0.0f && marked(4, 1));
    energies[0] = -1.0f;
    told = analysed_clicks(0.0f, ROOM, ROOM, NO_ENGINE);
    done = done && HOLDS(told.refusal == ULYPTESH_UNKNOWN_ENGINE && told.key == ULYPTESH_NO_KEY && told.frames == 0)
        && HOLDS(energies[0] == -1.0f && marked(0, 0) && counted(0, 0));
    return done && HOLDS(analysed_clicks(0.0f, ROOM, ROOM, UINT32_MAX).refusal == ULYPTESH_UNKNOWN_ENGINE);
}

/* Whether analyse and frames answer these numbers, over a sheet whose window alone has entries. */
static int both_answer(UlypteshSettings settings, UlypteshSheetHead head, size_t samples, size_t window,
                       uint32_t analyse_says, uint32_t frames_say)
{
    return HOLDS(analysed(settings, head, samples, window).refusal == analyse_says)
        && HOLDS(heard(settings, head, samples, window).refusal == frames_say);
}

/* Whether they answer these, and 13 where the engine is unknown too. */
static int engine_first(UlypteshSettings settings, UlypteshSheetHead head, size_t samples, size_t window,
                        uint32_t analyse_says, uint32_t frames_say)
{
    UlypteshSettings unknown = settings;
    unknown.engine = NO_ENGINE;
    return both_answer(settings, head, samples, window, analyse_says, frames_say)
        && both_answer(unknown, head, samples, window, ULYPTESH_UNKNOWN_ENGINE, ULYPTESH_UNKNOWN_ENGINE);
}

/* What is judged after the engine: that there is nothing to analyse, without samples or with a hop of 0, and 4 to 8. */
static int engine_before_others(void)
{
    UlypteshSettings good = rowless(), still = good, slow = good, hasty = good, lower = good;
    UlypteshSheetHead head = head_for(good);
    size_t window = good.frame_size;
    still.hop_size = 0;
    slow.rate = 1;
    hasty.local_hop_seconds = 0.4f;
    lower.minimum_midi_note = 126;
    return engine_first(good, head, 0, window, ULYPTESH_DONE, ULYPTESH_DONE)
        && engine_first(still, head, SHORT, window, ULYPTESH_DONE, ULYPTESH_DONE)
        && engine_first(slow, head, SHORT, window, ULYPTESH_TRACK_TOO_LONG, ULYPTESH_TRACK_TOO_LONG)
        && engine_first(hasty, head, SHORT, window, ULYPTESH_LOCAL_HOP_TOO_SHORT, ULYPTESH_TOO_FEW_ROWS)
        && engine_first(lower, head, SHORT, window, ULYPTESH_SHEET_OF_ANOTHER_CALL, ULYPTESH_SHEET_OF_ANOTHER_CALL)
        && engine_first(good, head, SHORT, 0, ULYPTESH_SHEET_NOT_WELL_FORMED, ULYPTESH_SHEET_NOT_WELL_FORMED)
        && engine_first(good, head, SHORT, window, ULYPTESH_TOO_FEW_ROWS, ULYPTESH_TOO_FEW_ROWS);
}

/* What is judged before it: 1 to 3. */
static int engine_after_others(void)
{
    UlypteshSettings fast = rowless(), wide, vague;
    UlypteshSheetHead head = head_for(fast);
    size_t window = fast.frame_size;
    fast.engine = NO_ENGINE;
    wide = vague = fast;
    fast.rate = 192001;
    wide.hop_size = 1048577;
    vague.minimum_segment_seconds = NAN;
    return both_answer(fast, head, SHORT, window, ULYPTESH_RATE_TOO_HIGH, ULYPTESH_RATE_TOO_HIGH)
        && both_answer(wide, head, SHORT, window, ULYPTESH_SIZE_TOO_LARGE, ULYPTESH_SIZE_TOO_LARGE)
        && both_answer(vague, head, SHORT, window, ULYPTESH_SETTING_NOT_FINITE, ULYPTESH_SETTING_NOT_FINITE);
}

/* An unknown engine beside whatever else is wrong. */
static int engine_in_order(void)
{
    return engine_after_others() && engine_before_others();
}

/* The key that is reported may be second: A minor, close behind C major and with a louder tonic. */
static int relative_key(void)
{
    const float chroma[ULYPTESH_PITCH_CLASSES] = {0.75f, 0, 0, 0, 0.5f, 0.5f, 0, 0.75f, 0, 1, 0, 0.25f};
    float scores[ULYPTESH_KEYS];
    UlypteshKeyResult found;
    ulyptesh_key(&found, chroma, ULYPTESH_PITCH_CLASSES);
    ulyptesh_scores(chroma, ULYPTESH_PITCH_CLASSES, scores, ULYPTESH_KEYS);
    return HOLDS(found.key == 21) && HOLDS(found.best == scores[0]) && HOLDS(found.second == scores[21]);
}

/* Without a score that is a number. */
static int no_score(void)
{
    const float chroma[ULYPTESH_PITCH_CLASSES] = {INFINITY};
    UlypteshKeyResult found;
    ulyptesh_key(&found, chroma, ULYPTESH_PITCH_CLASSES);
    return HOLDS(found.refusal == ULYPTESH_DONE && found.key == 0) && HOLDS(isnan(found.confidence))
        && HOLDS(found.best == -INFINITY && found.second == -INFINITY);
}

/* Whether both calls say of a chroma that it has no shape, or that it has one. */
static int is_shapeless(const float *chroma, uint32_t expected)
{
    float scores[ULYPTESH_KEYS];
    UlypteshKeyResult found;
    ulyptesh_key(&found, chroma, ULYPTESH_PITCH_CLASSES);
    UlypteshScoresResult scored = ulyptesh_scores(chroma, ULYPTESH_PITCH_CLASSES, scores, ULYPTESH_KEYS);
    return HOLDS(found.refusal == ULYPTESH_DONE && found.shapeless == expected)
        && HOLDS(scored.refusal == ULYPTESH_DONE && scored.shapeless == expected);
}

/* Zeros, equal numbers, small ones, a NaN and an infinity; a triad, and one whose sum overflows; refused: room for a
   score too few, a number too few. */
static int chroma_shapes(void)
{
    static const float ZEROS[12] = {0}, EQUAL[12] = {1, 1, 1, 1, 1, 1, 1, 1, 1, 1, 1, 1}, SMALL[12] = {1e-9f},
                       UNKNOWN[12] = {0, NAN}, ENDLESS[12] = {INFINITY}, TRIAD[12] = {1, 0, 0, 0, 1, 0, 0, 1},
                       LARGE[12] = {3e38f, 0, 0, 0, 3e38f, 0, 0, 3e38f};
    float scores[ULYPTESH_KEYS];
    UlypteshKeyResult found;
    ulyptesh_key(&found, ZEROS, ULYPTESH_PITCH_CLASSES - 1);
    UlypteshScoresResult scored = ulyptesh_scores(ZEROS, ULYPTESH_PITCH_CLASSES, scores, ULYPTESH_KEYS - 1);
    return is_shapeless(ZEROS, 1) && is_shapeless(EQUAL, 1) && is_shapeless(SMALL, 1) && is_shapeless(UNKNOWN, 1)
        && is_shapeless(ENDLESS, 1) && is_shapeless(TRIAD, 0) && is_shapeless(LARGE, 0)
        && HOLDS(found.refusal == ULYPTESH_WRONG_LENGTH && found.shapeless == 0)
        && HOLDS(scored.refusal == ULYPTESH_WRONG_LENGTH && scored.shapeless == 0);
}

/* Cards: rows o and p of the request, a lone segment of three minutes in A minor and none at all */

#define ROW_O {0x1A, 0xD7, 0x00, 0x03, 0xE8, 0x00, 0x81, 0x5F, 0x90, 0x55, 0xF4}
#define ROW_P {0x1C, 0x63, 0x00, 0x00, 0x00, 0x00, 0x00}

static const uint8_t ONE[ULYPTESH_LAYOUT_1_BYTES(1)] = ROW_O;
static const uint8_t NONE[ULYPTESH_LAYOUT_1_BYTES(0)] = ROW_P;

/* The same lone segment in layout 2, which it does not need. */
#define ROW_O_IN_2 {0x2A, 0xD7, 0x00, 0x03, 0xE8, 0x00, 0x20, 0x0A, 0xFC, 0x82, 0xAF, 0xA0}

/* Two rows, all 9 before a card is read. */
typedef struct CardRows {
    uint32_t starts[2], ends[2];
    uint8_t keys[2];
    uint16_t confidences[2];
} CardRows;

static const CardRows NINES = {{9, 9}, {9, 9}, {9, 9}, {9, 9}};

static int same_rows(const CardRows *one, const CardRows *other)
{
    int same = 1;
    for (size_t at = 0; at < 2; at++)
        same = same && one->starts[at] == other->starts[at] && one->ends[at] == other->ends[at]
            && one->keys[at] == other->keys[at] && one->confidences[at] == other->confidences[at];
    return same;
}

/* Whether bytes are refused so, over so many rows of each kind, with keys 24, zeros and no row changed. */
static int card_refused(uint32_t refusal, const uint8_t *bytes, size_t count, const size_t lent[4])
{
    CardRows rows = NINES;
    UlypteshCardRead told;
    UlypteshCardRead *answer = ulyptesh_read_card(&told, bytes, count, rows.starts, lent[0], rows.ends, lent[1],
                                                  rows.keys, lent[2], rows.confidences, lent[3]);
    return HOLDS(answer == &told) && HOLDS(told.refusal == refusal) && HOLDS(same_rows(&rows, &NINES))
        && HOLDS(told.key == ULYPTESH_NO_KEY && told.dsp_key == ULYPTESH_NO_KEY && told.alternate == ULYPTESH_NO_KEY)
        && HOLDS(told.coverage == 0 && told.confidence == 0 && told.segments == 0);
}

/* A card with each thing wrong; of two the first by number is told. */
static int cards_refused(void)
{
    static const size_t ENOUGH[4] = {2, 2, 2, 2}, FEW[5][4] = {
        {0, 1, 1, 1}, {1, 0, 1, 1}, {1, 1, 0, 1}, {1, 1, 1, 0}, {0, 0, 0, 0}};
    uint8_t longer[sizeof ONE + 1] = ROW_O, layout[] = ROW_P, rule[] = ROW_O, filler[] = ROW_P;
    layout[0] ^= 0x20;
    rule[2] ^= 0x20;
    filler[6] ^= 0x01;
    int done = card_refused(ULYPTESH_CARD_WRONG_LENGTH, NONE, sizeof NONE - 1, ENOUGH)
        && card_refused(ULYPTESH_CARD_WRONG_LENGTH, layout, sizeof layout - 1, ENOUGH)
        && card_refused(ULYPTESH_CARD_WRONG_LENGTH, ONE, sizeof ONE - 1, ENOUGH)
        && card_refused(ULYPTESH_CARD_WRONG_LENGTH, longer, sizeof longer, ENOUGH)
        && card_refused(ULYPTESH_CARD_UNKNOWN_LAYOUT, layout, sizeof layout, ENOUGH)
        && card_refused(ULYPTESH_CARD_BROKEN, rule, sizeof rule, ENOUGH)
        && card_refused(ULYPTESH_CARD_BROKEN, filler, sizeof filler, ENOUGH)
        && card_refused(ULYPTESH_CARD_BROKEN, rule, sizeof rule, FEW[0]);
    for (size_t at = 0; at < sizeof FEW / sizeof *FEW; at++)
        done = done && card_refused(ULYPTESH_TOO_FEW_CARD_ROWS, ONE, sizeof ONE, FEW[at]);
    return done;
}

/* Cards in layout 2 that layout 1 would have held, alone and with what is told before and after that. */
static int needless_refused(void)
{
    static const size_t ENOUGH[4] = {2, 2, 2, 2}, FEW[4] = {1, 1, 0, 1};
    uint8_t one[] = ROW_O_IN_2, none[] = ROW_P, rule[] = ROW_O_IN_2, filler[] = ROW_O_IN_2;
    none[0] ^= 0x30;
    rule[2] ^= 0x20;
    filler[sizeof filler - 1] ^= 0x01;
    return card_refused(ULYPTESH_CARD_NEEDLESS_LAYOUT, one, sizeof one, ENOUGH)
        && card_refused(ULYPTESH_CARD_NEEDLESS_LAYOUT, none, sizeof none, ENOUGH)
        && card_refused(ULYPTESH_CARD_NEEDLESS_LAYOUT, one, sizeof one, FEW)
        && card_refused(ULYPTESH_CARD_WRONG_LENGTH, one, sizeof one - 1, ENOUGH)
        && card_refused(ULYPTESH_CARD_BROKEN, rule, sizeof rule, ENOUGH)
        && card_refused(ULYPTESH_CARD_BROKEN, filler, sizeof filler, ENOUGH);
}

/* Row o over two rows, of which the second stays; row p over none. */
static int cards_read(void)
{
    static const CardRows EXPECTED = {{0, 9}, {180000, 9}, {21, 9}, {500, 9}};
    CardRows rows = NINES;
    UlypteshCardRead one, none;
    ulyptesh_read_card(&one, ONE, sizeof ONE, rows.starts, 2, rows.ends, 2, rows.keys, 2, rows.confidences, 2);
    ulyptesh_read_card(&none, NONE, sizeof NONE, NULL, 0, NULL, 0, NULL, 0, NULL, 0);
    return HOLDS(one.refusal == ULYPTESH_DONE && one.segments == 1 && same_rows(&rows, &EXPECTED))
        && HOLDS(one.key == 21 && one.dsp_key == 21 && one.alternate == ULYPTESH_NO_KEY)
        && HOLDS(one.coverage == 0 && one.confidence == 500)
        && HOLDS(none.refusal == ULYPTESH_DONE && none.segments == 0 && none.confidence == 0)
        && HOLDS(none.key == ULYPTESH_NO_KEY && none.dsp_key == ULYPTESH_NO_KEY);
}

/* Row o written with this key and confidence, from this start, with so many keys into so many bytes, each 9 before. */
static UlypteshWritten pack_one(uint32_t key, uint32_t confidence, uint32_t start, size_t keys, uint8_t *bytes,
                                size_t room)
{
    static const uint32_t ENDS[] = {180000};
    static const uint8_t KEYS[] = {21, 21};
    static const uint16_t CONFIDENCES[] = {500};
    memset(bytes, 9, sizeof ONE + 1);
    return ulyptesh_write_packed_card(key, 21, ULYPTESH_NO_KEY, 0, confidence, &start, 1, ENDS, 1, KEYS, keys,
                                      CONFIDENCES, 1, bytes, room);
}

/* Whether such a card is refused so, with no byte changed. */
static int packed_refused(uint32_t refusal, uint32_t key, uint32_t confidence, uint32_t start, size_t keys, size_t room)
{
    uint8_t bytes[sizeof ONE + 1], nines[sizeof ONE + 1];
    UlypteshWritten written = pack_one(key, confidence, start, keys, bytes, room);
    memset(nines, 9, sizeof nines);
    return HOLDS(written.refusal == refusal && written.length == 0) && HOLDS(memcmp(bytes, nines, sizeof nines) == 0);
}

/* Row o from its numbers; numbers that would be cut, another start, lists of other lengths, and a byte too few. */
static int cards_written(void)
{
    uint8_t bytes[sizeof ONE + 1];
    UlypteshWritten written = pack_one(21, 500, 0, 1, bytes, sizeof bytes);
    return HOLDS(written.refusal == ULYPTESH_DONE && written.length == sizeof ONE)
        && HOLDS(memcmp(bytes, ONE, sizeof ONE) == 0 && bytes[sizeof ONE] == 9)
        && packed_refused(ULYPTESH_UNWRITABLE, 21 + 32, 500, 0, 1, sizeof ONE)
        && packed_refused(ULYPTESH_UNWRITABLE, 21, 500 + 65536, 0, 1, sizeof ONE)
        && packed_refused(ULYPTESH_UNWRITABLE, 21, 500, 1, 1, sizeof ONE)
        && packed_refused(ULYPTESH_UNWRITABLE, 21, 500, 0, 2, sizeof ONE)
        && packed_refused(ULYPTESH_UNWRITABLE, 21, 500, 0, 0, 0)
        && packed_refused(ULYPTESH_TOO_FEW_BYTES, 21, 500, 0, 1, sizeof ONE - 1);
}

/* Bytes for the card of a segment more than the most, and as many rows as suffice for so many bytes. */
#define MOST ULYPTESH_MOST_CARD_SEGMENTS
static uint8_t card_bytes[ULYPTESH_CARD_BYTES(MOST + 1)];
#define CARD_ROWS ULYPTESH_CARD_SEGMENTS(sizeof card_bytes)
static uint32_t card_starts[CARD_ROWS], card_ends[CARD_ROWS];
static uint8_t card_keys[CARD_ROWS];
static uint16_t card_confidences[CARD_ROWS];

/* The last end of each layout, in milliseconds. */
#define LAST_OF_1 14400000u
#define LAST_OF_2 86400000u

/* Writes the card of so many segments, each a millisecond of C major but the last one, which ends here, into so many
   bytes. */
static UlypteshWritten write_up_to(uint32_t last, size_t segments, size_t room)
{
    uint32_t key = segments > 0 ? 0 : ULYPTESH_NO_KEY;
    for (size_t at = 0; at < segments; at++) {
        card_starts[at] = (uint32_t)at;
        card_ends[at] = at + 1 < segments ? (uint32_t)at + 1 : last;
    }
    return ulyptesh_write_packed_card(key, key, ULYPTESH_NO_KEY, 0, 0, card_starts, segments, card_ends, segments,
                                      card_keys, segments, card_confidences, segments, card_bytes, room);
}

/* Whether that card has so many bytes. */
static int card_has(size_t bytes, uint32_t last, size_t segments)
{
    UlypteshWritten written = write_up_to(last, segments, ULYPTESH_CARD_BYTES(segments));
    return HOLDS(written.refusal == ULYPTESH_DONE && written.length == bytes);
}

/* Whether so many bytes are answered so, over as many rows as suffice for them; what is read has so many segments up to
   this end. */
static int card_answers(uint32_t refusal, size_t bytes, uint32_t last, size_t segments)
{
    UlypteshCardRead told;
    size_t rows = ULYPTESH_CARD_SEGMENTS(bytes);
    ulyptesh_read_card(&told, card_bytes, bytes, card_starts, rows, card_ends, rows, card_keys, rows, card_confidences,
                       rows);
    if (refusal != ULYPTESH_DONE)
        return HOLDS(told.refusal == refusal && told.segments == 0);
    return HOLDS(told.refusal == ULYPTESH_DONE && told.segments == segments)
        && HOLDS(segments == 0 || card_ends[segments - 1] == last);
}

/* A millisecond for each segment: in layout 1, and in layout 2 where they are too many for it. */
static int card_by_its_count(size_t segments)
{
    uint32_t last = (uint32_t)segments;
    int fits = segments <= ULYPTESH_LAYOUT_1_SEGMENTS;
    size_t bytes = fits ? ULYPTESH_LAYOUT_1_BYTES(segments) : ULYPTESH_LAYOUT_2_BYTES(segments);
    return HOLDS(!fits || ULYPTESH_CARD_SEGMENTS(bytes) == segments) && card_has(bytes, last, segments)
        && card_answers(ULYPTESH_DONE, bytes, last, segments);
}

/* So many segments fit layout 1 and end too late for it; a millisecond less, by the end's last bit, the 27th of its
   segment, and layout 2 is needless. */
static int card_by_its_end(size_t segments)
{
    size_t bytes = ULYPTESH_LAYOUT_2_BYTES(segments), place = 51 + 42 * (segments - 1) + 26;
    int done = card_has(bytes, LAST_OF_1 + 1, segments) && card_answers(ULYPTESH_DONE, bytes, LAST_OF_1 + 1, segments);
    card_bytes[place / 8] ^= (uint8_t)(0x80 >> place % 8);
    return done && card_answers(ULYPTESH_CARD_NEEDLESS_LAYOUT, bytes, LAST_OF_1, segments);
}

/* Whether the test passes for every so many counts from the first to the last. */
static int passes_each(int (*passes)(size_t), size_t first, size_t last, size_t step)
{
    int done = 1;
    for (size_t segments = first; segments <= last; segments += step)
        done = done && passes(segments);
    return done;
}

/* Bytes and rows of cards in both layouts, of every so many counts. */
static int sizes_by(size_t step)
{
    return passes_each(card_by_its_count, 0, MOST, step)
        && passes_each(card_by_its_end, 1, ULYPTESH_LAYOUT_1_SEGMENTS, step);
}

/* Of every count. */
static int card_sizes(void)
{
    return sizes_by(1);
}

/* The most segments up to the last end; refused: a byte too few, a segment more, a millisecond more. */
static int largest_card(void)
{
    size_t bytes = ULYPTESH_LAYOUT_2_BYTES(MOST);
    return HOLDS(write_up_to(LAST_OF_2, MOST, bytes - 1).refusal == ULYPTESH_TOO_FEW_BYTES)
        && HOLDS(write_up_to(LAST_OF_2, MOST + 1, sizeof card_bytes).refusal == ULYPTESH_UNWRITABLE)
        && HOLDS(write_up_to(LAST_OF_2 + 1, MOST, bytes).refusal == ULYPTESH_UNWRITABLE)
        && card_has(bytes, LAST_OF_2, MOST) && card_answers(ULYPTESH_DONE, bytes, LAST_OF_2, MOST);
}

/* The card of one segment up to so many seconds, and what is read of it. */
static UlypteshWritten card_up_to(double seconds, CardRows *rows)
{
    static const double STARTS[] = {0.0};
    static const uint8_t KEYS[] = {21};
    static const float CONFIDENCES[] = {0.5f};
    uint8_t bytes[ULYPTESH_CARD_BYTES(1)] = {0};
    UlypteshCardRead told;
    UlypteshWritten written = ulyptesh_write_card(21, 21, ULYPTESH_NO_KEY, 0.0f, 0.5f, STARTS, 1, &seconds, 1, KEYS, 1,
                                                  CONFIDENCES, 1, bytes, sizeof bytes);
    ulyptesh_read_card(&told, bytes, written.length, rows->starts, 2, rows->ends, 2, rows->keys, 2, rows->confidences,
                       2);
    return written;
}

/* Whether the card of so many seconds ends at so many milliseconds. */
static int ends_at(double seconds, uint32_t milliseconds)
{
    CardRows rows = NINES;
    return HOLDS(card_up_to(seconds, &rows).refusal == ULYPTESH_DONE) && HOLDS(rows.ends[0] == milliseconds);
}

/* Whether there is no card of so many seconds. */
static int has_no_card(double seconds)
{
    CardRows rows = NINES;
    return HOLDS(card_up_to(seconds, &rows).refusal == ULYPTESH_UNWRITABLE);
}

/* A second less one sample, a float a hair below its millisecond, whole ones, the zeros, the last end of layout 1 and
   the next, the longest track; refused: a millisecond after that, below 0, no number. */
static int ends_rounded_down(void)
{
    return ends_at(7999.0 / 8000.0, 999) && ends_at(44099.0 / 44100.0, 999) && ends_at(191999.0 / 192000.0, 999)
        && ends_at(8640480.0 / 48000.0, 180009) && ends_at(180.0, 180000) && ends_at(0.5, 500) && ends_at(0.0, 0)
        && ends_at(-0.0, 0) && ends_at(14400.0, 14400000) && ends_at(14400.0009, 14400000)
        && ends_at(14400.0011, 14400001) && ends_at(86400.0, 86400000) && ends_at(86400.0009, 86400000)
        && has_no_card(86400.0011) && has_no_card(-0.0001) && has_no_card(-nextafter(0.0, 1.0)) && has_no_card(NAN);
}

/* Cards read and written from packed numbers, whichever way floats are rounded, with no sign of a float worked out. */
static int cards_rounded(void)
{
    static const int WAYS[] = {FE_UPWARD, FE_DOWNWARD, FE_TOWARDZERO};
    int done = HOLDS(feclearexcept(FE_ALL_EXCEPT) == 0);
    for (size_t at = 0; at < sizeof WAYS / sizeof *WAYS; at++)
        done = done && HOLDS(fesetround(WAYS[at]) == 0) && cards_read() && cards_refused() && needless_refused()
            && cards_written() && sizes_by(97) && largest_card() && HOLDS(fetestexcept(FE_ALL_EXCEPT) == 0);
    return HOLDS(fesetround(FE_TONEAREST) == 0) && done;
}

/* Sets: a set with its summary, and both as they were before a call */

typedef struct Set {
    uint8_t bytes[ULYPTESH_SET_BYTES];
    uint64_t summary[ULYPTESH_SUMMARY_NUMBERS];
} Set;

static Set set, before;

static UlypteshSetChange add(const uint8_t *card, size_t count)
{
    return ulyptesh_add_card(set.bytes, sizeof set.bytes, set.summary, ULYPTESH_SUMMARY_NUMBERS, card, count);
}

static UlypteshSetChange take_out(const uint8_t *card, size_t count)
{
    return ulyptesh_remove_card(set.bytes, sizeof set.bytes, set.summary, ULYPTESH_SUMMARY_NUMBERS, card, count);
}

static int changed(UlypteshSetChange change, uint32_t place)
{
    return HOLDS(change.refusal == ULYPTESH_DONE && change.place == place);
}

/* Whether a call refuses so, with nothing changed since before. */
static int unchanged(UlypteshSetChange change, uint32_t refusal)
{
    return HOLDS(change.refusal == refusal && change.place == 0) && HOLDS(memcmp(&set, &before, sizeof set) == 0);
}

/* Whether both calls refuse a card so. */
static int both_refuse(uint32_t refusal, const uint8_t *card, size_t count)
{
    before = set;
    return unchanged(add(card, count), refusal) && unchanged(take_out(card, count), refusal);
}

/* Whether a place has this card and zeros behind it. */
static int place_has(size_t place, const uint8_t *card, size_t count)
{
    const uint8_t *bytes = set.bytes + place * ULYPTESH_PLACE_BYTES;
    int same = count == 0 || memcmp(bytes, card, count) == 0;
    for (size_t at = count; at < ULYPTESH_PLACE_BYTES; at++)
        same = same && bytes[at] == 0;
    return same;
}

/* Whether the summary has these milliseconds of A minor, none of other keys, and these counts. */
static int summary_is(uint64_t milliseconds, uint64_t cards, uint64_t without_key)
{
    int same = set.summary[ULYPTESH_SUMMARY_CARDS] == cards
        && set.summary[ULYPTESH_SUMMARY_WITHOUT_KEY] == without_key;
    for (size_t key = 0; key < ULYPTESH_KEYS; key++)
        same = same && set.summary[key] == (key == 21 ? milliseconds : 0);
    return same;
}

/* Rows o, p and o again, in the three lowest places. */
static int three_added(void)
{
    memset(&set, 0, sizeof set);
    return changed(add(ONE, sizeof ONE), 0) && changed(add(NONE, sizeof NONE), 1) && changed(add(ONE, sizeof ONE), 2)
        && HOLDS(summary_is(360000, 3, 1) && place_has(0, ONE, sizeof ONE) && place_has(1, NONE, sizeof NONE))
        && HOLDS(place_has(2, ONE, sizeof ONE) && place_has(3, NULL, 0) && place_has(1023, NULL, 0));
}

/* Of equal cards the lowest goes, and the next card takes its place; without cards all is 0 again. */
static int set_places(void)
{
    int done = three_added() && changed(take_out(ONE, sizeof ONE), 0) && HOLDS(summary_is(180000, 2, 1))
        && HOLDS(place_has(0, NULL, 0) && place_has(2, ONE, sizeof ONE)) && changed(add(NONE, sizeof NONE), 0)
        && changed(take_out(NONE, sizeof NONE), 0) && changed(take_out(NONE, sizeof NONE), 1)
        && changed(take_out(ONE, sizeof ONE), 2);
    memset(&before, 0, sizeof before);
    return done && unchanged(take_out(ONE, sizeof ONE), ULYPTESH_NO_SUCH_CARD);
}

/* Whether the card of so many segments up to this end just fits a place, and that of one more is too long. */
static int longest_in_set(size_t segments, uint32_t last, size_t bytes, size_t too_many)
{
    return card_has(bytes, last, segments) && changed(add(card_bytes, bytes), 3)
        && changed(take_out(card_bytes, bytes), 3) && card_has(too_many, last, segments + 1)
        && both_refuse(ULYPTESH_CARD_TOO_LONG, card_bytes, too_many);
}

/* No card by each number, one that is not there, and in each layout cards that just fit and that are too long. */
static int sets_refuse_cards(void)
{
    uint8_t layout[] = ROW_P, rule[] = ROW_O, needless[] = ROW_O_IN_2, absent[] = ROW_O;
    layout[0] ^= 0x20;
    rule[2] ^= 0x20;
    absent[sizeof absent - 1] ^= 0x08;
    return three_added() && both_refuse(ULYPTESH_CARD_WRONG_LENGTH, NULL, 0)
        && both_refuse(ULYPTESH_CARD_WRONG_LENGTH, ONE, sizeof ONE - 1)
        && both_refuse(ULYPTESH_CARD_UNKNOWN_LAYOUT, layout, sizeof layout)
        && both_refuse(ULYPTESH_CARD_BROKEN, rule, sizeof rule)
        && both_refuse(ULYPTESH_CARD_NEEDLESS_LAYOUT, needless, sizeof needless)
        && unchanged(take_out(absent, sizeof absent), ULYPTESH_NO_SUCH_CARD)
        && longest_in_set(103, LAST_OF_1, 509, 514) && longest_in_set(96, LAST_OF_2, 511, 516)
        && HOLDS(summary_is(360000, 3, 1));
}

/* Whether the set is refused, also where the card is none. */
static int refused_as_spoilt(void)
{
    return both_refuse(ULYPTESH_SET_NOT_TRUE, ONE, sizeof ONE) && both_refuse(ULYPTESH_SET_NOT_TRUE, NULL, 0);
}

/* A layout, an end, a byte behind a card, free places; each number of the summary. Put right, the set is taken. */
static int sets_spoilt(void)
{
    static const size_t PLACES[] = {0, 7, sizeof ONE, 511, 512, 519, 3 * 512, ULYPTESH_SET_BYTES - 1};
    int done = three_added();
    for (size_t at = 0; at < sizeof PLACES / sizeof *PLACES; at++) {
        set.bytes[PLACES[at]] ^= 0x20;
        done = done && refused_as_spoilt();
        set.bytes[PLACES[at]] ^= 0x20;
    }
    for (size_t at = 0; at < ULYPTESH_SUMMARY_NUMBERS; at++) {
        set.summary[at]++;
        done = done && refused_as_spoilt();
        set.summary[at]--;
    }
    return done && changed(take_out(NONE, sizeof NONE), 1);
}

/* Whether a set and a summary of these sizes are refused by both calls. */
static int size_refused(size_t bytes, size_t numbers)
{
    before = set;
    return unchanged(ulyptesh_add_card(set.bytes, bytes, set.summary, numbers, ONE, sizeof ONE), ULYPTESH_SET_NOT_TRUE)
        && unchanged(ulyptesh_remove_card(set.bytes, bytes, set.summary, numbers, ONE, sizeof ONE),
                     ULYPTESH_SET_NOT_TRUE);
}

static int set_sizes(void)
{
    size_t bytes = ULYPTESH_SET_BYTES, numbers = ULYPTESH_SUMMARY_NUMBERS;
    return three_added() && size_refused(0, numbers) && size_refused(bytes - 1, numbers)
        && size_refused(bytes - ULYPTESH_PLACE_BYTES, numbers) && size_refused(bytes, 0)
        && size_refused(bytes, numbers - 1);
}

/* All places taken: no card is added, and one that is taken out makes room. */
static int set_full(void)
{
    memset(&set, 0, sizeof set);
    for (size_t place = 0; place < ULYPTESH_SET_PLACES; place++)
        memcpy(set.bytes + place * ULYPTESH_PLACE_BYTES, ONE, sizeof ONE);
    set.summary[21] = (uint64_t)180000 * ULYPTESH_SET_PLACES;
    set.summary[ULYPTESH_SUMMARY_CARDS] = ULYPTESH_SET_PLACES;
    before = set;
    return unchanged(add(NONE, sizeof NONE), ULYPTESH_SET_FULL)
        && both_refuse(ULYPTESH_CARD_WRONG_LENGTH, ONE, sizeof ONE - 1) && changed(take_out(ONE, sizeof ONE), 0)
        && changed(add(NONE, sizeof NONE), 0) && HOLDS(summary_is((uint64_t)180000 * 1023, 1024, 1))
        && changed(take_out(ONE, sizeof ONE), 1);
}

/* Sets whichever way floats are rounded, with no sign of a float worked out. */
static int sets_rounded(void)
{
    static const int WAYS[] = {FE_UPWARD, FE_DOWNWARD, FE_TOWARDZERO};
    int done = HOLDS(feclearexcept(FE_ALL_EXCEPT) == 0);
    for (size_t at = 0; at < sizeof WAYS / sizeof *WAYS; at++)
        done = done && HOLDS(fesetround(WAYS[at]) == 0) && set_places() && sets_refuse_cards() && set_full()
            && HOLDS(fetestexcept(FE_ALL_EXCEPT) == 0);
    return HOLDS(fesetround(FE_TONEAREST) == 0) && done;
}

/* Whether settings are refused so, with nothing made. */
static int refused(UlypteshSettings settings, uint32_t expected)
{
    uint32_t status;
    return HOLDS(ulyptesh_easy_new_for(settings, &status) == NULL) && HOLDS(status == expected);
}

/* Settings by which no track can be analysed. */
static int settings_refused(void)
{
    UlypteshSettings fast = usual(), wide = fast, vague = fast, hasty = fast, still = fast, turned = fast,
                     unknown = fast;
    fast.rate = 192001;
    wide.frame_size = SIZE_MAX;
    vague.minimum_segment_seconds = NAN;
    hasty.local_hop_seconds = 0.4f;
    still.hop_size = 0;
    turned.minimum_midi_note = turned.maximum_midi_note + 1;
    unknown.engine = NO_ENGINE;
    return refused(fast, ULYPTESH_RATE_TOO_HIGH) && refused(wide, ULYPTESH_SIZE_TOO_LARGE)
        && refused(vague, ULYPTESH_SETTING_NOT_FINITE) && refused(hasty, ULYPTESH_LOCAL_HOP_TOO_SHORT)
        && refused(still, ULYPTESH_EASY_NOTHING_ANALYSED) && refused(turned, ULYPTESH_EASY_NOTHING_ANALYSED)
        && refused(ulyptesh_easy_settings(0), ULYPTESH_EASY_NOTHING_ANALYSED)
        && refused(unknown, ULYPTESH_UNKNOWN_ENGINE);
}

/* A day at 1 Hz is taken, with the largest frame too; a sample more is refused. */
static int longest_track(void)
{
    static float silence[ULYPTESH_LONGEST_TRACK_SECONDS + 1];
    static const size_t DAY = ULYPTESH_LONGEST_TRACK_SECONDS;
    UlypteshSettings slow = ulyptesh_easy_settings(1);
    UlypteshAnalyseResult told;
    UlypteshFramesResult frames;
    uint32_t status;
    slow.frame_size = 65536;
    UlypteshEasy *easy = ulyptesh_easy_new_for(slow, &status);
    int done = HOLDS(easy != NULL && status == ULYPTESH_DONE)
        && HOLDS(ulyptesh_easy_analyse(easy, silence, DAY, &told) == ULYPTESH_DONE && told.key == ULYPTESH_NO_KEY)
        && HOLDS(ulyptesh_easy_frames(easy, silence, DAY, &frames) == ULYPTESH_DONE && frames.count == 0)
        && HOLDS(ulyptesh_easy_analyse(easy, silence, DAY + 1, &told) == ULYPTESH_TRACK_TOO_LONG)
        && HOLDS(ulyptesh_easy_frames(easy, silence, DAY + 1, &frames) == ULYPTESH_TRACK_TOO_LONG);
    ulyptesh_easy_free(easy);
    return done;
}

/* A major third and a fifth over C. */
static void fill_tone(void)
{
    for (size_t at = 0; at < LONG; at++) {
        double seconds = (double)at / RATE;
        tone[at] = (float)(sin(1643.8 * seconds) + sin(2071.1 * seconds) + sin(2463.0 * seconds)) / 4.0f;
    }
}

/* A track that is not finite, and what is left of it: loud frames before it, and no segment and no card. */
static int track_refused(UlypteshEasy *easy)
{
    uint8_t card[ULYPTESH_CARD_BYTES(1)];
    UlypteshAnalyseResult told;
    float kept = tone[SHORT / 2];
    tone[SHORT / 2] = 1e30f;
    uint32_t status = ulyptesh_easy_analyse(easy, tone, SHORT, &told);
    tone[SHORT / 2] = kept;
    return HOLDS(status == ULYPTESH_FRAME_NOT_FINITE) && HOLDS(told.refusal == status && told.position == told.frames)
        && HOLDS(told.shapeless == 0 && ulyptesh_easy_estimate(easy, 0).key == ULYPTESH_NO_KEY)
        && HOLDS(ulyptesh_easy_frame(easy, 0).energy > 0.0f)
        && HOLDS(ulyptesh_easy_segment(easy, 0).key == ULYPTESH_NO_KEY && ulyptesh_easy_segment(easy, 0).windows == 0)
        && HOLDS(ulyptesh_easy_write_card(easy, card, sizeof card).refusal == ULYPTESH_UNWRITABLE);
}

/* Whether the last track has so many estimates, the first at 6 s, each in C major and with a shape. */
static int estimates_in_c_major(const UlypteshEasy *easy, size_t count)
{
    UlypteshEasyEstimate none = ulyptesh_easy_estimate(easy, count);
    int done = HOLDS(none.middle == 0.0 && none.key == ULYPTESH_NO_KEY && none.shapeless == 0);
    for (size_t at = 0; at < count; at++) {
        UlypteshEasyEstimate told = ulyptesh_easy_estimate(easy, at);
        done = done && HOLDS(told.middle == 6.0 * (double)(at + 1) && told.key == 0)
            && HOLDS(told.confidence > 0.0f && told.shapeless == 0);
    }
    return done;
}

/* Whether a track is told as one segment in C major, with its card. */
static int told_as_c_major(UlypteshEasy *easy, size_t samples)
{
    uint8_t card[ULYPTESH_LAYOUT_1_BYTES(1)];
    UlypteshAnalyseResult told;
    return HOLDS(ulyptesh_easy_analyse(easy, tone, samples, &told) == ULYPTESH_DONE)
        && HOLDS(told.key == 0 && told.segments == 1 && told.shapeless == 0)
        && HOLDS(told.estimates == (samples == LONG ? 4 : 0)) && estimates_in_c_major(easy, told.estimates)
        && HOLDS(ulyptesh_easy_segment(easy, 0).end == (double)samples / RATE)
        && HOLDS(ulyptesh_easy_segment(easy, 0).windows == told.estimates)
        && HOLDS(ulyptesh_easy_segment(easy, 1).key == ULYPTESH_NO_KEY && ulyptesh_easy_segment(easy, 1).windows == 0)
        && HOLDS(ulyptesh_easy_write_card(easy, card, sizeof card).length == sizeof card);
}

/* Whether two loud frames are the same, bit for bit. */
static int same_frame(UlypteshEasyFrame one, UlypteshEasyFrame other)
{
    return memcmp(&one.centre, &other.centre, sizeof one.centre) == 0
        && memcmp(one.chroma, other.chroma, sizeof one.chroma) == 0
        && memcmp(&one.energy, &other.energy, sizeof one.energy) == 0;
}

/* Whether two answers are the same behind their refusals, bit for bit; the only gap stands before that. */
static int same_answer(const UlypteshAnalyseResult *one, const UlypteshAnalyseResult *other)
{
    size_t front = offsetof(UlypteshAnalyseResult, position);
    return memcmp((const char *)one + front, (const char *)other + front, sizeof *one - front) == 0;
}

/* Whether the tone is told alike by two that differ in their engines: the answer, each loud frame, the card. */
static int told_alike(UlypteshEasy *one, UlypteshEasy *other)
{
    uint8_t card[ULYPTESH_LAYOUT_1_BYTES(1)], other_card[sizeof card];
    UlypteshAnalyseResult told, other_told;
    int done = HOLDS(ulyptesh_easy_analyse(one, tone, SHORT, &told) == ULYPTESH_DONE)
        && HOLDS(ulyptesh_easy_analyse(other, tone, SHORT, &other_told) == ULYPTESH_DONE)
        && HOLDS(told.key < ULYPTESH_NO_KEY && told.frames > 0 && same_answer(&told, &other_told));
    for (size_t at = 0; done && at < told.frames; at++)
        done = HOLDS(same_frame(ulyptesh_easy_frame(one, at), ulyptesh_easy_frame(other, at)));
    return done && HOLDS(ulyptesh_easy_write_card(one, card, sizeof card).length == sizeof card)
        && HOLDS(ulyptesh_easy_write_card(other, other_card, sizeof card).length == sizeof card)
        && HOLDS(memcmp(card, other_card, sizeof card) == 0);
}

/* One note to nine: up to two batches of four, with up to three odd notes behind them. */
static int engines_agree(void)
{
    int done = 1;
    fill_tone();
    for (uint8_t highest = 60; highest <= 68; highest++) {
        uint32_t status, other_status;
        UlypteshSettings settings = usual();
        settings.minimum_midi_note = 60;
        settings.maximum_midi_note = highest;
        UlypteshEasy *one = ulyptesh_easy_new_for(settings, &status);
        settings.engine = ULYPTESH_FOUR_AT_A_TIME;
        UlypteshEasy *other = ulyptesh_easy_new_for(settings, &other_status);
        done = done && HOLDS(status == ULYPTESH_DONE && other_status == ULYPTESH_DONE) && told_alike(one, other);
        ulyptesh_easy_free(one);
        ulyptesh_easy_free(other);
    }
    return done;
}

/* One memory for tracks of several lengths, a refused one among them. */
static int tracks_in_turn(void)
{
    uint32_t status;
    UlypteshFramesResult frames;
    UlypteshEasy *easy = ulyptesh_easy_new(RATE, &status);
    fill_tone();
    int done = HOLDS(easy != NULL && status == ULYPTESH_DONE)
        && HOLDS(ulyptesh_easy_frames(easy, tone, RATE, &frames) == ULYPTESH_DONE && frames.count > 0)
        && told_as_c_major(easy, SHORT) && told_as_c_major(easy, LONG) && track_refused(easy)
        && told_as_c_major(easy, SHORT);
    ulyptesh_easy_free(easy);
    return done;
}

/* The k-th allocation fails: it is told, and once there is memory again the track is analysed. */
static int without_allocation(int k)
{
    uint32_t status;
    UlypteshAnalyseResult told;
    allocations = k;
    UlypteshEasy *easy = ulyptesh_easy_new(RATE, &status);
    if (easy != NULL)
        status = ulyptesh_easy_analyse(easy, tone, SHORT, &told);
    allocations = -1;
    int done = HOLDS(status == ULYPTESH_EASY_NO_MEMORY) && (easy == NULL || told_as_c_major(easy, SHORT));
    ulyptesh_easy_free(easy);
    return done;
}

/* 1 for itself, 6 for its sheet, 13 for its rows. */
static int no_memory(void)
{
    int done = 1;
    fill_tone();
    for (int k = 0; k < 20; k++)
        done = done && without_allocation(k);
    return done;
}

static const struct {
    const char *name;
    int (*passes)(void);
} TESTS[] = {
    {"abi", abi},
    {"no-slices", no_slices},
    {"some-slices", some_slices},
    {"no-rows", no_rows},
    {"track-shapes", track_shapes},
    {"track-windows", track_windows},
    {"other-sheet", other_sheet},
    {"engine-refused", engine_refused},
    {"engine-in-order", engine_in_order},
    {"relative-key", relative_key},
    {"no-score", no_score},
    {"chroma-shapes", chroma_shapes},
    {"cards-read", cards_read},
    {"cards-refused", cards_refused},
    {"needless-refused", needless_refused},
    {"cards-written", cards_written},
    {"card-sizes", card_sizes},
    {"largest-card", largest_card},
    {"ends-rounded-down", ends_rounded_down},
    {"cards-rounded", cards_rounded},
    {"set-places", set_places},
    {"sets-refuse-cards", sets_refuse_cards},
    {"sets-spoilt", sets_spoilt},
    {"set-sizes", set_sizes},
    {"set-full", set_full},
    {"sets-rounded", sets_rounded},
    {"settings-refused", settings_refused},
    {"longest-track", longest_track},
    {"engines-agree", engines_agree},
    {"tracks-in-turn", tracks_in_turn},
    {"no-memory", no_memory},
};

int main(int count, char **words)
{
    int met = 0, done = 1;
    for (size_t at = 0; at < sizeof TESTS / sizeof *TESTS; at++)
        if (count < 2 || strcmp(words[1], TESTS[at].name) == 0) {
            met = 1;
            done = TESTS[at].passes() && done;
        }
    if (!met)
        fprintf(stderr, "edges: no test has this name: %s\n", words[1]);
    return met && done ? EXIT_SUCCESS : EXIT_FAILURE;
}
