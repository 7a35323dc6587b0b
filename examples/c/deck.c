/* Reads a key card as a deck does, prints what it says, writes it again in memory and compares. After host/build:
   cc -std=c99 -I include examples/c/deck.c examples/c/ulyptesh_easy.c target/staticlib/libulyptesh.a -lm -o deck
   deck FILE [MS]   - is standard input; with a time in milliseconds also the key that sounds there
   Ends with 0, or tells why not and ends with 1, or with 2 for bad usage. */
#include "ulyptesh_easy.h"

#include <errno.h>
#include <stdio.h>
#include <stdlib.h>
#include <string.h>

#define ROWS ULYPTESH_MOST_CARD_SEGMENTS
/* One byte more than the longest card has, so that a longer file is refused and not cut. */
#define MOST_BYTES (ULYPTESH_CARD_BYTES(ROWS) + 1)

/* What a card says, with room for the most segments. */
typedef struct Card {
    UlypteshCardRead head;
    uint32_t starts[ROWS], ends[ROWS];
    uint8_t keys[ROWS];
    uint16_t confidences[ROWS];
} Card;

/* Loads a file up to so many bytes; tells why where that fails. */
static int load(const char *name, uint8_t *bytes, size_t *count)
{
    FILE *file = strcmp(name, "-") == 0 ? stdin : fopen(name, "rb");
    *count = file == NULL ? 0 : fread(bytes, 1, MOST_BYTES, file);
    int done = file != NULL && !ferror(file);
    if (!done)
        perror(name);
    if (file != NULL && file != stdin)
        fclose(file);
    return done;
}

/* A whole number of milliseconds. */
static int read_time(const char *word, uint32_t *ms)
{
    char *end;
    errno = 0;
    unsigned long value = strtoul(word, &end, 10);
    *ms = (uint32_t)value;
    return word[0] >= '0' && word[0] <= '9' && *end == '\0' && errno == 0 && value <= UINT32_MAX;
}

static uint32_t read_card(const uint8_t *bytes, size_t count, Card *card)
{
    ulyptesh_read_card(&card->head, bytes, count, card->starts, ROWS, card->ends, ROWS, card->keys, ROWS,
                       card->confidences, ROWS);
    return card->head.refusal;
}

static void print_card(const Card *card)
{
    const UlypteshCardRead *head = &card->head;
    char name[ULYPTESH_EASY_NAME_BYTES];
    printf("key: %s, confidence %.3f\n", ulyptesh_easy_key_name(head->key, name), head->confidence / 1000.0);
    if (head->alternate != ULYPTESH_NO_KEY)
        printf("alternate: %s, %.3f of the track\n", ulyptesh_easy_key_name(head->alternate, name),
               head->coverage / 1000.0);
    for (size_t at = 0; at < head->segments; at++)
        printf("%u ms to %u ms: %s, confidence %.3f\n", (unsigned)card->starts[at], (unsigned)card->ends[at],
               ulyptesh_easy_key_name(card->keys[at], name), card->confidences[at] / 1000.0);
}

/* The key that sounds at a time: at the very end the last segment's, outside the track none. */
static uint32_t key_at(const Card *card, uint32_t ms)
{
    size_t count = (size_t)card->head.segments;
    for (size_t at = 0; at < count; at++)
        if (ms < card->ends[at])
            return card->keys[at];
    return count > 0 && ms == card->ends[count - 1] ? card->keys[count - 1] : ULYPTESH_NO_KEY;
}

/* Whether the card written again has the bytes that it was read from. */
static int same_again(const Card *card, const uint8_t *bytes, size_t count)
{
    const UlypteshCardRead *head = &card->head;
    size_t rows = (size_t)head->segments;
    static uint8_t again[MOST_BYTES];
    UlypteshWritten written = ulyptesh_write_packed_card(
        head->key, head->dsp_key, head->alternate, head->coverage, head->confidence, card->starts, rows, card->ends,
        rows, card->keys, rows, card->confidences, rows, again, sizeof again);
    return written.refusal == ULYPTESH_DONE && written.length == count && memcmp(again, bytes, count) == 0;
}

int main(int count, char **words)
{
    static uint8_t bytes[MOST_BYTES];
    static Card card;
    char name[ULYPTESH_EASY_NAME_BYTES];
    uint32_t ms = 0;
    size_t length;
    if (count < 2 || count > 3 || (count == 3 && !read_time(words[2], &ms))) {
        fprintf(stderr, "usage: deck FILE [MS]\n");
        return 2;
    }
    if (!load(words[1], bytes, &length))
        return EXIT_FAILURE;
    uint32_t refusal = read_card(bytes, length, &card);
    if (refusal != ULYPTESH_DONE) {
        fprintf(stderr, "%s: %s (refused %u)\n", words[1], ulyptesh_easy_words(refusal), (unsigned)refusal);
        return EXIT_FAILURE;
    }
    print_card(&card);
    if (count == 3)
        printf("at %u ms: %s\n", (unsigned)ms, ulyptesh_easy_key_name(key_at(&card, ms), name));
    int same = same_again(&card, bytes, length);
    printf("written again: %s\n", same ? "the same bytes" : "other bytes");
    return same ? EXIT_SUCCESS : EXIT_FAILURE;
}
