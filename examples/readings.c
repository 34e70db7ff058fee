/*
 * Readings: the sentences of a bank that have two or more derivations.
 *
 *   readings LENGTH <BANK
 *
 * BANK is in document 01's layout. Each such sentence of that length is a line, in the bank's order: its lowest
 * derivation number, how many derivations it has, a colon, its words. Every derivation is looked at, so a bank with
 * billions of them takes long.
 *
 * Exit status: 0 there is none; 1 there are some; 2 an error.
 */
#include "pumpfennel.h"

#include <inttypes.h>
#include <stdio.h>
#include <stdlib.h>

static void accepted(uint8_t refusal) {
    if (refusal != PUMPFENNEL_ACCEPTED) {
        fprintf(stderr, "readings: refused %d: %s\n", refusal, pumpfennel_refusal_text(refusal));
        exit(2);
    }
}

int main(int argc, char **argv) {
    uint8_t bank[PUMPFENNEL_LARGEST_GRAMMAR + 1]; /* a longer bank is cut, and refused all the same */
    uint8_t sentence[PUMPFENNEL_LONGEST_SENTENCE];
    uint64_t total, number, derivations;
    char *end = "";
    uint64_t length = argc == 2 ? strtoull(argv[1], &end, 10) : 0;
    if (argc != 2 || *end != 0) {
        fprintf(stderr, "usage: readings LENGTH <BANK\n");
        return 2;
    }
    size_t size = fread(bank, 1, sizeof bank, stdin);
    int found = 0;
    accepted(pumpfennel_count(bank, size, length, &total));
    for (uint64_t d = 0; d < total; d++) {
        accepted(pumpfennel_unrank(bank, size, length, d, sentence, sizeof sentence, &total));
        accepted(pumpfennel_rank(bank, size, sentence, length, &number, &total, &derivations));
        if (derivations == 1 || number != d) continue; /* the only one, or not the first */
        printf("%" PRIu64 " %" PRIu64 ":", number, derivations);
        for (uint64_t i = 0; i < length; i++) printf(" %d", sentence[i]);
        printf("\n");
        found = 1;
    }
    return found;
}
