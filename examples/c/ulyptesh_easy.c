/* The table sheet and the rows of one UlypteshEasy, and the library's calls over them. */
#include "ulyptesh_easy.h"

#include <math.h>
#include <stdlib.h>
#include <string.h>

static const float PI_F = 3.14159265358979323846f;

/* Row k of either kind is for the lowest note plus k. */
typedef struct {
    UlypteshSheetHead head;
    float *window;
    size_t window_count, rows, q_rows, q_window_count;
    float *coefficients, *weights;
    uint32_t *lengths;
    float *q_coefficients, *q_windows;
} Sheet;

/* What is lent to be written: frame rows and work numbers by position, estimates and segments by window. */
typedef struct {
    size_t positions, windows;
    double *centres;
    float (*values)[ULYPTESH_PITCH_CLASSES];
    float *energies, *work;
    double *middles;
    uint8_t *numbers;
    float *certainties;
    uint8_t *shapeless;
    double *starts, *ends;
    uint8_t *keys;
    float *confidences;
    uint32_t *counts;
} Rows;

struct UlypteshEasy {
    UlypteshSettings settings;
    Sheet sheet;
    Rows rows;
    UlypteshAnalyseResult last; /* what was told of the last track, whose rows are still there */
};

/* Zeros, at least one, so that only a lack of memory gives NULL. */
static void *zeros(size_t count, size_t size)
{
    return calloc(count > 0 ? count : 1, size);
}

/* The table sheet */

static float frequency(size_t note)
{
    return 440.0f * powf(2.0f, ((float)note - 69.0f) / 12.0f);
}

/* The length of a note's window: so many periods that semitones are told apart, and at most a second. */
static uint32_t window_length(uint32_t rate, float hertz)
{
    float periods = 1.0f / (powf(2.0f, 1.0f / 12.0f) - 1.0f);
    float length = ceilf(periods * (float)rate / hertz);
    return length < (float)rate ? (uint32_t)length : rate;
}

/* Counts the rows: a note has one where its frequency is below 0.45 of the rate, and a constant-Q row where its window
   has 4 samples too. Frequencies rise, so the notes with a row are the lowest. */
static void count_rows(Sheet *sheet)
{
    const UlypteshSheetHead *head = &sheet->head;
    for (size_t note = head->minimum_midi_note; note <= head->maximum_midi_note; note++) {
        float hertz = frequency(note);
        if (!(hertz < (float)head->rate * 0.45f))
            return;
        sheet->rows++;
        uint32_t length = window_length(head->rate, hertz);
        if (length >= 4) {
            sheet->q_rows++;
            sheet->q_window_count += length;
        }
    }
}

static int allocate_sheet(Sheet *sheet)
{
    sheet->window = zeros(sheet->window_count, sizeof *sheet->window);
    sheet->coefficients = zeros(sheet->rows, sizeof *sheet->coefficients);
    sheet->weights = zeros(sheet->rows, sizeof *sheet->weights);
    sheet->lengths = zeros(sheet->q_rows, sizeof *sheet->lengths);
    sheet->q_coefficients = zeros(sheet->q_rows, sizeof *sheet->q_coefficients);
    sheet->q_windows = zeros(sheet->q_window_count, sizeof *sheet->q_windows);
    return sheet->window && sheet->coefficients && sheet->weights && sheet->lengths && sheet->q_coefficients
        && sheet->q_windows;
}

static void free_sheet(Sheet *sheet)
{
    free(sheet->window);
    free(sheet->coefficients);
    free(sheet->weights);
    free(sheet->lengths);
    free(sheet->q_coefficients);
    free(sheet->q_windows);
}

/* The window of a frame begins and ends at 0. */
static void fill_frame_window(float *window, size_t size)
{
    float last = size > 2 ? (float)(size - 1) : 1.0f;
    for (size_t at = 0; at < size; at++)
        window[at] = 0.5f - 0.5f * cosf(2.0f * PI_F * (float)at / last);
}

/* The window of a note begins at 0, and the next one would. */
static void fill_note_window(float *window, uint32_t length)
{
    for (uint32_t at = 0; at < length; at++)
        window[at] = 0.5f * (1.0f - cosf(2.0f * PI_F * (float)at / (float)length));
}

static void fill_rows(Sheet *sheet)
{
    float rate = (float)sheet->head.rate;
    float *next_window = sheet->q_windows;
    for (size_t row = 0; row < sheet->rows; row++) {
        float hertz = frequency(sheet->head.minimum_midi_note + row);
        sheet->coefficients[row] = 2.0f * cosf(2.0f * PI_F * hertz / rate);
        sheet->weights[row] = 1.0f / sqrtf(hertz);
        if (row < sheet->q_rows) {
            sheet->lengths[row] = window_length(sheet->head.rate, hertz);
            sheet->q_coefficients[row] = 2.0f * cosf(2.0f * PI_F * (hertz / rate));
            fill_note_window(next_window, sheet->lengths[row]);
            next_window += sheet->lengths[row];
        }
    }
}

static UlypteshSheetHead head_for(const UlypteshSettings *settings)
{
    UlypteshSheetHead head;
    head.rate = settings->rate;
    head.minimum_midi_note = settings->minimum_midi_note;
    head.maximum_midi_note = settings->maximum_midi_note;
    head.frame_size = settings->frame_size;
    return head;
}

/* Makes the tables that the sheet's head asks for; free_sheet takes them back, also where this fails. */
static int make_sheet(Sheet *sheet)
{
    sheet->window_count = sheet->head.frame_size;
    count_rows(sheet);
    if (!allocate_sheet(sheet))
        return 0;
    fill_frame_window(sheet->window, sheet->window_count);
    fill_rows(sheet);
    return 1;
}

/* The rows */

static size_t larger(size_t a, size_t b)
{
    return a > b ? a : b;
}

/* How many frames fit into a track. */
static size_t frame_positions(const UlypteshSettings *settings, size_t samples)
{
    if (settings->hop_size == 0 || samples < settings->frame_size)
        return 0;
    return (samples - settings->frame_size) / settings->hop_size + 1;
}

/* How many local windows fit into a track. A hop below half a second is refused, so no track that is analysed has more
   than two windows a second, and one. */
static size_t local_windows(const UlypteshSettings *settings, size_t samples)
{
    double window = settings->local_window_seconds, hop = settings->local_hop_seconds;
    double duration = (double)samples / settings->rate;
    size_t windows = 0;
    if (duration < window + hop)
        return 1;
    for (double start = 0.0; start + window <= duration; start += hop)
        if (++windows > 2 * ULYPTESH_LONGEST_TRACK_SECONDS)
            break;
    return windows;
}

static int allocate_rows(Rows *rows, size_t positions, size_t windows)
{
    rows->centres = zeros(positions, sizeof *rows->centres);
    rows->values = zeros(positions, sizeof *rows->values);
    rows->energies = zeros(positions, sizeof *rows->energies);
    rows->work = zeros(positions, sizeof *rows->work);
    rows->middles = zeros(windows, sizeof *rows->middles);
    rows->numbers = zeros(windows, sizeof *rows->numbers);
    rows->certainties = zeros(windows, sizeof *rows->certainties);
    rows->shapeless = zeros(windows, sizeof *rows->shapeless);
    rows->starts = zeros(windows, sizeof *rows->starts);
    rows->ends = zeros(windows, sizeof *rows->ends);
    rows->keys = zeros(windows, sizeof *rows->keys);
    rows->confidences = zeros(windows, sizeof *rows->confidences);
    rows->counts = zeros(windows, sizeof *rows->counts);
    return rows->centres && rows->values && rows->energies && rows->work && rows->middles && rows->numbers
        && rows->certainties && rows->shapeless && rows->starts && rows->ends && rows->keys && rows->confidences
        && rows->counts;
}

static void free_rows(Rows *rows)
{
    free(rows->centres);
    free(rows->values);
    free(rows->energies);
    free(rows->work);
    free(rows->middles);
    free(rows->numbers);
    free(rows->certainties);
    free(rows->shapeless);
    free(rows->starts);
    free(rows->ends);
    free(rows->keys);
    free(rows->confidences);
    free(rows->counts);
    memset(rows, 0, sizeof *rows);
}

/* Rows for a track of so many samples, no fewer than before; none at all where memory is too little. */
static int grow_rows(UlypteshEasy *easy, size_t samples)
{
    Rows *rows = &easy->rows;
    size_t positions = larger(rows->positions, frame_positions(&easy->settings, samples));
    size_t windows = larger(rows->windows, local_windows(&easy->settings, samples));
    free_rows(rows);
    if (!allocate_rows(rows, positions, windows)) {
        free_rows(rows);
        return 0;
    }
    rows->positions = positions;
    rows->windows = windows;
    return 1;
}

/* The library's calls, with the rows that are there */

static UlypteshAnalyseResult analysed(UlypteshEasy *easy, const float *samples, size_t count)
{
    const Sheet *sheet = &easy->sheet;
    Rows *rows = &easy->rows;
    UlypteshAnalyseResult answer;
    ulyptesh_analyse(&answer, easy->settings, sheet->head, samples, count,
                     sheet->window, sheet->window_count,
                     sheet->coefficients, sheet->rows, sheet->weights, sheet->rows,
                     sheet->lengths, sheet->q_rows, sheet->q_coefficients, sheet->q_rows,
                     sheet->q_windows, sheet->q_window_count,
                     rows->centres, rows->positions, rows->values, rows->positions, rows->energies, rows->positions,
                     rows->work, rows->positions,
                     rows->middles, rows->windows, rows->numbers, rows->windows, rows->certainties, rows->windows,
                     rows->shapeless, rows->windows,
                     rows->starts, rows->windows, rows->ends, rows->windows, rows->keys, rows->windows,
                     rows->confidences, rows->windows, rows->counts, rows->windows);
    return answer;
}

static UlypteshFramesResult heard(UlypteshEasy *easy, const float *samples, size_t count)
{
    const Sheet *sheet = &easy->sheet;
    Rows *rows = &easy->rows;
    UlypteshFramesResult answer;
    ulyptesh_frames(&answer, easy->settings, sheet->head, samples, count,
                    sheet->window, sheet->window_count,
                    sheet->coefficients, sheet->rows, sheet->weights, sheet->rows,
                    sheet->lengths, sheet->q_rows, sheet->q_coefficients, sheet->q_rows,
                    sheet->q_windows, sheet->q_window_count,
                    rows->centres, rows->positions, rows->values, rows->positions, rows->energies, rows->positions);
    return answer;
}

/* An answer without a key. */
static UlypteshAnalyseResult keyless(uint32_t refusal, uint64_t frames)
{
    UlypteshAnalyseResult answer;
    memset(&answer, 0, sizeof answer);
    answer.refusal = refusal;
    answer.key = answer.dsp_key = answer.alternate = ULYPTESH_NO_KEY;
    answer.frames = frames;
    return answer;
}

/* Settings, and the sheet for them. The library judges them without rows: before the sheet is made without a track,
   then on a track of one frame, of which it says that rows are missing where nothing else is wrong. */
static uint32_t equip(UlypteshEasy *easy, const UlypteshSettings *settings)
{
    Sheet *sheet = &easy->sheet;
    easy->settings = *settings;
    easy->last = keyless(ULYPTESH_UNWRITABLE, 0);
    sheet->head = head_for(settings);
    uint32_t refusal = analysed(easy, NULL, 0).refusal;
    if (refusal != ULYPTESH_DONE)
        return refusal;
    if (!make_sheet(sheet))
        return ULYPTESH_EASY_NO_MEMORY;
    refusal = analysed(easy, sheet->window, sheet->window_count).refusal;
    if (refusal == ULYPTESH_TOO_FEW_ROWS)
        return ULYPTESH_DONE;
    return refusal == ULYPTESH_DONE ? (uint32_t)ULYPTESH_EASY_NOTHING_ANALYSED : refusal;
}

/* What the header declares */

UlypteshSettings ulyptesh_easy_settings(uint32_t rate)
{
    UlypteshSettings settings;
    settings.rate = rate;
    settings.frame_size = 4096;
    settings.hop_size = 2048;
    settings.minimum_midi_note = 36;
    settings.maximum_midi_note = 95;
    settings.local_window_seconds = 12.0f;
    settings.local_hop_seconds = 6.0f;
    settings.alternate_coverage_threshold = 0.25f;
    settings.segment_confidence_threshold = 0.35f;
    settings.minimum_segment_seconds = 12.0f;
    settings.engine = ULYPTESH_SIDE_BY_SIDE;
    return settings;
}

UlypteshEasy *ulyptesh_easy_new(uint32_t rate, uint32_t *status)
{
    return ulyptesh_easy_new_for(ulyptesh_easy_settings(rate), status);
}

UlypteshEasy *ulyptesh_easy_new_for(UlypteshSettings settings, uint32_t *status)
{
    if (ulyptesh_abi() != ULYPTESH_ABI) {
        *status = ULYPTESH_EASY_OTHER_LIBRARY;
        return NULL;
    }
    UlypteshEasy *easy = zeros(1, sizeof *easy);
    *status = easy == NULL ? (uint32_t)ULYPTESH_EASY_NO_MEMORY : equip(easy, &settings);
    if (*status == ULYPTESH_DONE)
        return easy;
    ulyptesh_easy_free(easy);
    return NULL;
}

void ulyptesh_easy_free(UlypteshEasy *easy)
{
    if (easy == NULL)
        return;
    free_sheet(&easy->sheet);
    free_rows(&easy->rows);
    free(easy);
}

uint32_t ulyptesh_easy_analyse(UlypteshEasy *easy, const float *samples, size_t sample_count,
                               UlypteshAnalyseResult *answer)
{
    *answer = analysed(easy, samples, sample_count);
    if (answer->refusal == ULYPTESH_TOO_FEW_ROWS)
        *answer = grow_rows(easy, sample_count) ? analysed(easy, samples, sample_count)
                                                : keyless(ULYPTESH_EASY_NO_MEMORY, 0);
    easy->last = *answer;
    return answer->refusal;
}

uint32_t ulyptesh_easy_frames(UlypteshEasy *easy, const float *samples, size_t sample_count,
                              UlypteshFramesResult *answer)
{
    static const UlypteshFramesResult NO_MEMORY = {ULYPTESH_EASY_NO_MEMORY, 0, 0};
    *answer = heard(easy, samples, sample_count);
    if (answer->refusal == ULYPTESH_TOO_FEW_ROWS)
        *answer = grow_rows(easy, sample_count) ? heard(easy, samples, sample_count) : NO_MEMORY;
    easy->last = keyless(ULYPTESH_UNWRITABLE, answer->count);
    return answer->refusal;
}

UlypteshEasySegment ulyptesh_easy_segment(const UlypteshEasy *easy, size_t number)
{
    const Rows *rows = &easy->rows;
    UlypteshEasySegment segment = {0.0, 0.0, ULYPTESH_NO_KEY, 0.0f, 0};
    if (number < easy->last.segments) {
        segment.start = rows->starts[number];
        segment.end = rows->ends[number];
        segment.key = rows->keys[number];
        segment.confidence = rows->confidences[number];
        segment.windows = rows->counts[number];
    }
    return segment;
}

UlypteshEasyEstimate ulyptesh_easy_estimate(const UlypteshEasy *easy, size_t number)
{
    const Rows *rows = &easy->rows;
    UlypteshEasyEstimate estimate = {0.0, ULYPTESH_NO_KEY, 0.0f, 0};
    if (number < easy->last.estimates) {
        estimate.middle = rows->middles[number];
        estimate.key = rows->numbers[number];
        estimate.confidence = rows->certainties[number];
        estimate.shapeless = rows->shapeless[number];
    }
    return estimate;
}

UlypteshEasyFrame ulyptesh_easy_frame(const UlypteshEasy *easy, size_t number)
{
    const Rows *rows = &easy->rows;
    UlypteshEasyFrame frame = {0.0, {0.0f}, 0.0f};
    if (number < easy->last.frames) {
        frame.centre = rows->centres[number];
        memcpy(frame.chroma, rows->values[number], sizeof frame.chroma);
        frame.energy = rows->energies[number];
    }
    return frame;
}

UlypteshWritten ulyptesh_easy_write_card(const UlypteshEasy *easy, uint8_t *bytes, size_t byte_count)
{
    static const UlypteshWritten NO_CARD = {ULYPTESH_UNWRITABLE, 0};
    const UlypteshAnalyseResult *last = &easy->last;
    const Rows *rows = &easy->rows;
    size_t count = (size_t)last->segments;
    if (last->refusal != ULYPTESH_DONE)
        return NO_CARD;
    return ulyptesh_write_card(last->key, last->dsp_key, last->alternate, last->coverage, last->confidence,
                               rows->starts, count, rows->ends, count, rows->keys, count, rows->confidences, count,
                               bytes, byte_count);
}

const char *ulyptesh_easy_key_name(uint32_t key, char *name)
{
    UlypteshWritten written = ulyptesh_write_key_name(key, (uint8_t *)name, ULYPTESH_LONGEST_NAME);
    if (written.refusal == ULYPTESH_DONE)
        name[written.length] = '\0';
    else
        strcpy(name, "none");
    return name;
}

const char *ulyptesh_easy_words(uint32_t status)
{
    switch (status) {
    case ULYPTESH_DONE: return "not refused";
    case ULYPTESH_RATE_TOO_HIGH: return "the rate is above 192,000";
    case ULYPTESH_SIZE_TOO_LARGE: return "the frame size or the hop size is too large";
    case ULYPTESH_SETTING_NOT_FINITE: return "a setting is not finite";
    case ULYPTESH_TRACK_TOO_LONG: return "the track is longer than 24 hours";
    case ULYPTESH_LOCAL_HOP_TOO_SHORT: return "the local hop is below half a second";
    case ULYPTESH_SHEET_OF_ANOTHER_CALL: return "the sheet is for another rate, other notes or another frame size";
    case ULYPTESH_SHEET_NOT_WELL_FORMED: return "the sheet is not well formed";
    case ULYPTESH_TOO_FEW_ROWS: return "the track needs more rows or work numbers";
    case ULYPTESH_FRAME_NOT_FINITE: return "a loud frame is not finite";
    case ULYPTESH_UNWRITABLE: return "no key has this number, or no card can be written";
    case ULYPTESH_TOO_FEW_BYTES: return "more bytes are needed";
    case ULYPTESH_UNKNOWN_ENGINE: return "the engine is neither 0 nor 1";
    case ULYPTESH_WRONG_LENGTH: return "a chroma has 12 numbers, and 24 scores";
    case ULYPTESH_CARD_WRONG_LENGTH: return "the card is too short, or not as long as its segment count gives";
    case ULYPTESH_CARD_UNKNOWN_LAYOUT: return "the card's layout is not known";
    case ULYPTESH_CARD_BROKEN: return "the card breaks a card rule, or a bit behind its last field is set";
    case ULYPTESH_CARD_NEEDLESS_LAYOUT: return "the card is in layout 2, and layout 1 would have held it";
    case ULYPTESH_TOO_FEW_CARD_ROWS: return "the card needs more segment rows";
    case ULYPTESH_CARD_TOO_LONG: return "the card is longer than a place of a set";
    case ULYPTESH_SET_FULL: return "the set is full";
    case ULYPTESH_NO_SUCH_CARD: return "the set has no such card";
    case ULYPTESH_SET_NOT_TRUE: return "these are no set and its summary";
    case ULYPTESH_EASY_NO_MEMORY: return "too little memory";
    case ULYPTESH_EASY_OTHER_LIBRARY: return "the library has another interface than its header";
    case ULYPTESH_EASY_NOTHING_ANALYSED: return "by these settings no track is analysed";
    default: return "an unknown number";
    }
}
