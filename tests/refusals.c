/*
 * Each refusal by its name in the header: a call that is refused for just that, and words that its text has and no other.
 * Calls and words are written by hand and come from no list, so that two exchanged names or meanings are noticed. The
 * number of each is printed, a line each.
 */
#include "pumpfennel.h"

#include <stdio.h>
#include <string.h>

/* A run of bytes, and its length. */
#define BYTES(...) (const uint8_t[]){__VA_ARGS__}, sizeof((const uint8_t[]){__VA_ARGS__})

/* S is word 0, and nothing else. */
#define ONE BYTES(1, 1, 1, 0, /* head */ 1, /* rule 1 */ 0, 0, 0, 0)

/* S is two S, or word 0: three words have two derivations. */
#define TREES BYTES(1, 1, 2, 0, /* head */ 1, /* rules */ 1, 0, 0, 2, 0, 0, 0, 0)

/* S is two S, or one of six words: 16 words have 9,694,845 * 6^16 derivations, which is above 2^64. */
#define MANY BYTES(1, 6, 7, 0, 1, 1, 0, 0, 2, 0, 0, 0, 3, 0, 1, 0, 4, 0, 2, 0, 5, 0, 3, 0, 6, 0, 4, 0, 7, 0, 5, 0, 0)

/* A history of one record: the head, and the record's next and length; its words are 0. */
#define RECORD(head, next, length) \
    BYTES(1, 0, head, 0, next, 0, length, 0, 0, 0, 0, 0, 0, 0, 0, 0, 0, 0, 0, 0, 0, 0, 0, 0)

static uint64_t f, g, h;

static uint8_t check_grammar(const uint8_t *grammar, size_t size) {
    return pumpfennel_check_grammar(grammar, size, &f, &g);
}

static uint8_t check_history(const uint8_t *history, size_t size) {
    return pumpfennel_check_history(history, size, &f);
}

int main(void) {
    uint8_t sentence[1] = {0}, history[4] = {0};
    const struct {
        int name;
        uint8_t given;
        const char *words;
    } rows[] = {
        {PUMPFENNEL_ACCEPTED, check_grammar(ONE), "accepted"},
        /* three bytes */
        {PUMPFENNEL_GRAMMAR_TOO_SHORT, check_grammar(BYTES(1, 1, 1)), "grammar has fewer"},
        /* no words */
        {PUMPFENNEL_GRAMMAR_OUT_OF_RANGE, check_grammar(BYTES(1, 0, 1, 0, 1, 0, 0, 0, 0)), "range"},
        /* the last byte is missing */
        {PUMPFENNEL_GRAMMAR_WRONG_SIZE, check_grammar(BYTES(1, 1, 1, 0, 1, 0, 0, 0)), "grammar's size"},
        /* a rule of kind 2 */
        {PUMPFENNEL_GRAMMAR_BAD_RULE, check_grammar(BYTES(1, 1, 1, 0, 1, 2, 0, 0, 0)), "forbids"},
        /* the head is rule 2 of 1 */
        {PUMPFENNEL_GRAMMAR_BAD_LINK, check_grammar(BYTES(1, 1, 1, 0, 2, 0, 0, 0, 0)), "next in the grammar"},
        /* rule 1 comes after rule 1 */
        {PUMPFENNEL_GRAMMAR_RULE_MET_TWICE, check_grammar(BYTES(1, 1, 1, 0, 1, 0, 0, 0, 1)), "second time"},
        /* the chain is empty, and there is a rule */
        {PUMPFENNEL_GRAMMAR_RULE_ON_NO_CHAIN, check_grammar(BYTES(1, 1, 1, 0, 0, 0, 0, 0, 0)), "on no chain"},
        /* word 0, then word 0 */
        {PUMPFENNEL_GRAMMAR_EQUAL_RULES, check_grammar(BYTES(1, 1, 2, 0, 1, 0, 0, 0, 2, 0, 0, 0, 0)), "two rules"},
        {PUMPFENNEL_BAD_LENGTH, pumpfennel_count(ONE, 17, &f), "1 to 16"},
        {PUMPFENNEL_TOO_MANY_DERIVATIONS, pumpfennel_count(MANY, 16, &f), "a count that"},
        /* one record, and no bytes for it */
        {PUMPFENNEL_HISTORY_WRONG_SIZE, check_history(BYTES(1, 0, 1, 0)), "4 + 20K"},
        /* a sentence of no words */
        {PUMPFENNEL_HISTORY_BAD_RECORD, check_history(RECORD(1, 0, 0)), "some record"},
        /* the head is record 2 of 1 */
        {PUMPFENNEL_HISTORY_BAD_LINK, check_history(RECORD(2, 0, 1)), "history's head"},
        /* record 1 comes after record 1 */
        {PUMPFENNEL_HISTORY_BAD_CHAIN, check_history(RECORD(1, 1, 1)), "history's chain"},
        {PUMPFENNEL_HEARD_AMBIGUOUS, pumpfennel_remaining(TREES, RECORD(1, 0, 3), 3, 0, &f, &g, &h), "heard in the voice"},
        /* there is derivation 0, and no derivation 1 */
        {PUMPFENNEL_NUMBER_BEYOND, pumpfennel_unrank(ONE, 1, 1, sentence, 1, &f), "to choose from"},
        {PUMPFENNEL_SENTENCE_UNDERIVABLE, pumpfennel_rank(ONE, BYTES(1), &f, &g, &h), "no derivation"},
        /* no longer returned: the sentence is accepted */
        {PUMPFENNEL_SENTENCE_AMBIGUOUS, pumpfennel_rank(TREES, BYTES(0, 0, 0), &f, &g, &h), "the sentence has two"},
        /* no record, and no room for one */
        {PUMPFENNEL_HISTORY_FULL, pumpfennel_append(history, 4, BYTES(0), 0, 0, &f), "no room"},
        /* one word, and room for none */
        {PUMPFENNEL_BUFFER_TOO_SHORT, pumpfennel_unrank(ONE, 1, 0, sentence, 0, &f), "buffer"},
        /* word 1 of 1, and no history */
        {PUMPFENNEL_BAD_PATTERN, pumpfennel_remaining_matching(ONE, NULL, 0, BYTES(1), 0, &f, &g, &h), "the pattern is neither"},
        /* no record, no room for one, and the voice 16 */
        {PUMPFENNEL_BAD_VOICE, pumpfennel_append(history, 4, BYTES(0), 16, 0, &f), "the voice is above"},
        /* no record, no room for one, and both of two words played */
        {PUMPFENNEL_BAD_PLAYED, pumpfennel_append(history, 4, BYTES(0, 0), 0, 2, &f), "played is the sentence's"},
        /* two weights of one word, no history, and room for none */
        {PUMPFENNEL_BAD_WEIGHTS, pumpfennel_draw_weighted(ONE, NULL, 0, 1, 0, BYTES(1, 1), 0, NULL, 0, &f, &g), "the weights are"},
        /* sixteen words of weight 255, which is above 2^64, no history, and room for none */
        {PUMPFENNEL_TOO_MANY_TICKETS, pumpfennel_draw_weighted(TREES, NULL, 0, 16, 0, BYTES(255), 0, NULL, 0, &f, &g), "total weight"},
    };
    const int count = sizeof rows / sizeof rows[0];
    int wrong = 0;
    for (int i = 0; i < count; i++) {
        printf("%d\n", rows[i].name);
        int expected = rows[i].name == PUMPFENNEL_SENTENCE_AMBIGUOUS ? PUMPFENNEL_ACCEPTED : rows[i].name;
        if (rows[i].given != expected && ++wrong)
            fprintf(stderr, "refusals: %d in place of %d\n", rows[i].given, expected);
        for (int number = 0; number < 256; number++) {
            int found = strstr(pumpfennel_refusal_text((uint8_t)number), rows[i].words) != NULL;
            if (found != (number == rows[i].name) && ++wrong)
                fprintf(stderr, "refusals: '%s' is %s the text of %d\n", rows[i].words, found ? "in" : "not in", number);
        }
    }
    return wrong != 0;
}
