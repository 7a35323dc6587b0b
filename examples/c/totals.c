/* Keeps key cards in a set with its summary: adds three, takes one out, and prints how long each key sounds. After
   host/build:
   cc -std=c99 -I include examples/c/totals.c examples/c/ulyptesh_easy.c target/staticlib/libulyptesh.a -lm -o totals
   Ends with 0, or tells why not and ends with 1. */
#include "ulyptesh_easy.h"

#include <inttypes.h>
#include <stdio.h>
#include <stdlib.h>

/* An empty set is zeros. A program may store both, and load them again: each call checks them. */
static uint8_t set[ULYPTESH_SET_BYTES];
static uint64_t summary[ULYPTESH_SUMMARY_NUMBERS];

/* Three minutes in A minor; 15 s in C major and 9 s in F# minor; a track without a key. */
static const uint8_t ONE_KEY[] = {0x1A, 0xD7, 0x00, 0x03, 0xE8, 0x00, 0x81, 0x5F, 0x90, 0x55, 0xF4};
static const uint8_t TWO_KEYS[] = {0x10, 0x02, 0x4B, 0xBA, 0x3E, 0x01, 0x00, 0x1D,
                                   0x4C, 0x01, 0x9B, 0x00, 0x5D, 0xC0, 0x92, 0x0C};
static const uint8_t NO_KEY[] = {0x1C, 0x63, 0x00, 0x00, 0x00, 0x00, 0x00};

/* Prints which place was changed, or tells why none was. */
static int told(const char *what, UlypteshSetChange change)
{
    if (change.refusal == ULYPTESH_DONE)
        printf("%s: place %u\n", what, (unsigned)change.place);
    else
        fprintf(stderr, "%s: %s (refused %u)\n", what, ulyptesh_easy_words(change.refusal), (unsigned)change.refusal);
    return change.refusal == ULYPTESH_DONE;
}

static int add(const char *what, const uint8_t *card, size_t count)
{
    return told(what, ulyptesh_add_card(set, sizeof set, summary, ULYPTESH_SUMMARY_NUMBERS, card, count));
}

static int take_out(const char *what, const uint8_t *card, size_t count)
{
    return told(what, ulyptesh_remove_card(set, sizeof set, summary, ULYPTESH_SUMMARY_NUMBERS, card, count));
}

static void print_totals(void)
{
    char name[ULYPTESH_EASY_NAME_BYTES];
    printf("%" PRIu64 " cards, %" PRIu64 " without a key\n", summary[ULYPTESH_SUMMARY_CARDS],
           summary[ULYPTESH_SUMMARY_WITHOUT_KEY]);
    for (uint32_t key = 0; key < ULYPTESH_KEYS; key++)
        if (summary[key] > 0)
            printf("  %s: %" PRIu64 " ms\n", ulyptesh_easy_key_name(key, name), summary[key]);
}

int main(void)
{
    int added = add("one key added", ONE_KEY, sizeof ONE_KEY) && add("two keys added", TWO_KEYS, sizeof TWO_KEYS)
        && add("no key added", NO_KEY, sizeof NO_KEY);
    if (!added)
        return EXIT_FAILURE;
    print_totals();
    if (!take_out("one key taken out", ONE_KEY, sizeof ONE_KEY))
        return EXIT_FAILURE;
    print_totals();
    return EXIT_SUCCESS;
}
