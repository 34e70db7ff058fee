/*
 * Pumpfennel's calls for C (C99 and later) and C++. Link with libpumpfennel.a, which is for x86-64.
 *
 * A grammar (document 01: bank) and a history (document 01: diary) are runs of bytes in document 01's layout; a
 * sentence is one byte a word, a voice a number from 0 to 15. A pattern is one byte a place: PUMPFENNEL_BLANK, where any
 * word fits, or the word that stands there. Weights are one byte for each word of the grammar, from word 0 up: how much
 * that word weighs, 1 to 255. Each call returns 0 where it is accepted, or else the number of the first refusal that
 * applies; they are looked at in the order that is named with the call. Then every figure is 0 and every buffer is as it
 * was. Refusals have document 01's letters: a grammar has N nonterminals, W words, R rules and the start S, a history K
 * records.
 *
 * Every answer is proved, for any bytes and any numbers. What C can't check is left to the caller:
 * - A pointer is valid for the length given with it. Where that is 0 nothing is read or written through it, and it may
 *   be NULL.
 * - A figure's pointer points to a uint64_t. A call writes all its figures, whatever they held.
 * - What a call writes (figures, and the buffer of unrank, draw, draw_matching, draw_weighted and append) overlaps
 *   nothing else that it is given. What it only reads may overlap.
 * - No other thread writes to what a call is given, or reads what it writes, until it returns.
 *
 * The library keeps nothing between calls, and neither allocates nor reads or writes any file: calls on different
 * buffers may run in several threads. Tables lie on the stack: PUMPFENNEL_MATCHING_STACK, PUMPFENNEL_LARGE_STACK and
 * PUMPFENNEL_SMALL_STACK below say how much of it a call takes.
 */
#ifndef PUMPFENNEL_H
#define PUMPFENNEL_H

#include <stddef.h>
#include <stdint.h>

/* version: from VERSION, by tools/generate */
/* The version, as text and as one number: major * 10,000 + minor * 100 + patch. */
#define PUMPFENNEL_VERSION "0.5.2"
#define PUMPFENNEL_VERSION_NUMBER 502
/* A name that the archive has for this interface alone: it changes with major and minor. */
#define PUMPFENNEL_INTERFACE pumpfennel_interface_0_5
/* end of version */

/* The most words of a sentence, and the most bytes of a grammar: 32 nonterminals and 255 rules. */
#define PUMPFENNEL_LONGEST_SENTENCE 16
#define PUMPFENNEL_LARGEST_GRAMMAR 1056

/* The byte of a pattern that any word fits. */
#define PUMPFENNEL_BLANK 255

/* The most records of a history, how many bytes so many records take, and the most bytes of a history without slack. */
#define PUMPFENNEL_MOST_RECORDS 1000
#define PUMPFENNEL_HISTORY_SIZE(records) (4 + 20 * (records))
#define PUMPFENNEL_LARGEST_HISTORY 20004

/*
 * The most bytes of stack that a call takes: one with a pattern or with weights the first, rank and the plain remaining
 * and draw the large one, the others the small one.
 */
#define PUMPFENNEL_MATCHING_STACK 163840
#define PUMPFENNEL_LARGE_STACK 102400
#define PUMPFENNEL_SMALL_STACK 16384

#ifdef __cplusplus
extern "C" {
#endif

/* refusals: from refusals.txt, by tools/generate */
/* What a call returns, with the documents' numbers and meanings. */
enum pumpfennel_refusal {
    PUMPFENNEL_ACCEPTED = 0,
    /* The grammar has fewer than 4 bytes. */
    PUMPFENNEL_GRAMMAR_TOO_SHORT = 1,
    /* N, W, R or S is outside its range. */
    PUMPFENNEL_GRAMMAR_OUT_OF_RANGE = 2,
    /* The grammar's size is not 4 + N + 4R. */
    PUMPFENNEL_GRAMMAR_WRONG_SIZE = 3,
    /* Some rule has a kind, a or b that its layout forbids. */
    PUMPFENNEL_GRAMMAR_BAD_RULE = 4,
    /* Some head or next in the grammar is above R. */
    PUMPFENNEL_GRAMMAR_BAD_LINK = 5,
    /* A rule is met a second time, walking the chains from nonterminal 0 up. */
    PUMPFENNEL_GRAMMAR_RULE_MET_TWICE = 6,
    /* A rule is on no chain. */
    PUMPFENNEL_GRAMMAR_RULE_ON_NO_CHAIN = 7,
    /* One chain holds two rules with the same kind, a and b. */
    PUMPFENNEL_GRAMMAR_EQUAL_RULES = 8,
    /* The length, or the sentence's length, is not 1 to 16. */
    PUMPFENNEL_BAD_LENGTH = 9,
    /* A count that the length needs is above 2^64 - 1. */
    PUMPFENNEL_TOO_MANY_DERIVATIONS = 10,
    /* The history has fewer than 4 bytes, K is above 1,000, or it has fewer than 4 + 20K bytes. */
    PUMPFENNEL_HISTORY_WRONG_SIZE = 11,
    /* Some record has a wrong length, a count of words played that is its length or more, or a non-zero byte beyond its words. */
    PUMPFENNEL_HISTORY_BAD_RECORD = 12,
    /* The history's head or some next is above K. */
    PUMPFENNEL_HISTORY_BAD_LINK = 13,
    /* The history's chain meets a record twice or misses one. */
    PUMPFENNEL_HISTORY_BAD_CHAIN = 14,
    /* A sentence of the length, heard in the voice, has two or more derivations. */
    PUMPFENNEL_HEARD_AMBIGUOUS = 15,
    /* The number is not below how many there are to choose from. */
    PUMPFENNEL_NUMBER_BEYOND = 16,
    /* The sentence has no derivation. */
    PUMPFENNEL_SENTENCE_UNDERIVABLE = 17,
    /* No longer returned: the sentence has two or more derivations. */
    PUMPFENNEL_SENTENCE_AMBIGUOUS = 18,
    /* The history has 1,000 records or no room for one more. */
    PUMPFENNEL_HISTORY_FULL = 19,
    /* The sentence's buffer is shorter than the length. */
    PUMPFENNEL_BUFFER_TOO_SHORT = 20,
    /* A byte of the pattern is neither 255 nor a word of the grammar. */
    PUMPFENNEL_BAD_PATTERN = 21,
    /* The voice is above 15. */
    PUMPFENNEL_BAD_VOICE = 22,
    /* The count of words played is the sentence's length or more. */
    PUMPFENNEL_BAD_PLAYED = 23,
    /* The weights are not W bytes, or one of them is 0. */
    PUMPFENNEL_BAD_WEIGHTS = 24,
    /* A total weight that the length needs is above 2^64 - 1. */
    PUMPFENNEL_TOO_MANY_TICKETS = 25
};

/* What a call returned, in words: a sentence without its first capital and its full stop. */
static inline const char *pumpfennel_refusal_text(uint8_t refusal) {
    switch (refusal) {
    case PUMPFENNEL_ACCEPTED:
        return "accepted";
    case PUMPFENNEL_GRAMMAR_TOO_SHORT:
        return "the grammar has fewer than 4 bytes";
    case PUMPFENNEL_GRAMMAR_OUT_OF_RANGE:
        return "N, W, R or S is outside its range";
    case PUMPFENNEL_GRAMMAR_WRONG_SIZE:
        return "the grammar's size is not 4 + N + 4R";
    case PUMPFENNEL_GRAMMAR_BAD_RULE:
        return "some rule has a kind, a or b that its layout forbids";
    case PUMPFENNEL_GRAMMAR_BAD_LINK:
        return "some head or next in the grammar is above R";
    case PUMPFENNEL_GRAMMAR_RULE_MET_TWICE:
        return "a rule is met a second time, walking the chains from nonterminal 0 up";
    case PUMPFENNEL_GRAMMAR_RULE_ON_NO_CHAIN:
        return "a rule is on no chain";
    case PUMPFENNEL_GRAMMAR_EQUAL_RULES:
        return "one chain holds two rules with the same kind, a and b";
    case PUMPFENNEL_BAD_LENGTH:
        return "the length, or the sentence's length, is not 1 to 16";
    case PUMPFENNEL_TOO_MANY_DERIVATIONS:
        return "a count that the length needs is above 2^64 - 1";
    case PUMPFENNEL_HISTORY_WRONG_SIZE:
        return "the history has fewer than 4 bytes, K is above 1,000, or it has fewer than 4 + 20K bytes";
    case PUMPFENNEL_HISTORY_BAD_RECORD:
        return "some record has a wrong length, a count of words played that is its length or more, or a non-zero byte beyond its words";
    case PUMPFENNEL_HISTORY_BAD_LINK:
        return "the history's head or some next is above K";
    case PUMPFENNEL_HISTORY_BAD_CHAIN:
        return "the history's chain meets a record twice or misses one";
    case PUMPFENNEL_HEARD_AMBIGUOUS:
        return "a sentence of the length, heard in the voice, has two or more derivations";
    case PUMPFENNEL_NUMBER_BEYOND:
        return "the number is not below how many there are to choose from";
    case PUMPFENNEL_SENTENCE_UNDERIVABLE:
        return "the sentence has no derivation";
    case PUMPFENNEL_SENTENCE_AMBIGUOUS:
        return "the sentence has two or more derivations";
    case PUMPFENNEL_HISTORY_FULL:
        return "the history has 1,000 records or no room for one more";
    case PUMPFENNEL_BUFFER_TOO_SHORT:
        return "the sentence's buffer is shorter than the length";
    case PUMPFENNEL_BAD_PATTERN:
        return "a byte of the pattern is neither 255 nor a word of the grammar";
    case PUMPFENNEL_BAD_VOICE:
        return "the voice is above 15";
    case PUMPFENNEL_BAD_PLAYED:
        return "the count of words played is the sentence's length or more";
    case PUMPFENNEL_BAD_WEIGHTS:
        return "the weights are not W bytes, or one of them is 0";
    case PUMPFENNEL_TOO_MANY_TICKETS:
        return "a total weight that the length needs is above 2^64 - 1";
    default:
        return "no such refusal";
    }
}
/* end of refusals */

/* The archive's version as one number, to be held against the header's PUMPFENNEL_VERSION_NUMBER. */
uint64_t pumpfennel_version(void);

/*
 * The same again. With gcc and clang every object that includes this header names it, so that with the archive of another
 * interface, whose calls may take other parameters, it doesn't link. Where a compiler has no `retain` (gcc before 11),
 * a linker that drops unreferenced data drops the name too; pumpfennel_version tells the version in any case.
 */
uint64_t PUMPFENNEL_INTERFACE(void);
#ifdef __has_attribute
#if __has_attribute(retain)
#define PUMPFENNEL_KEPT __attribute__((used, retain))
#endif
#endif
#if defined(__GNUC__) && !defined(PUMPFENNEL_KEPT)
#define PUMPFENNEL_KEPT __attribute__((used))
#endif
#ifdef PUMPFENNEL_KEPT
PUMPFENNEL_KEPT static uint64_t (*const pumpfennel_interface)(void) = PUMPFENNEL_INTERFACE;
#endif

/* Check bank: gives how many nonterminals and words the grammar has. Refusals 1 to 8. */
uint8_t pumpfennel_check_grammar(const uint8_t *grammar, size_t grammar_len, uint64_t *nonterminals, uint64_t *words);

/* Check diary: gives how many records the history has. Refusals 11 to 14. */
uint8_t pumpfennel_check_history(const uint8_t *history, size_t history_len, uint64_t *records);

/*
 * Count: gives how many derivations the start has with that length. Refusals 1 to 10.
 *
 * 10, here and below: the length needs the start's count at that length; and with a nonterminal's count at a length, the counts of
 * both nonterminals of each of its pair rules at every shorter length. What no sentence of that length reaches may have any number of
 * derivations.
 */
uint8_t pumpfennel_count(const uint8_t *grammar, size_t grammar_len, uint64_t length, uint64_t *total);

/*
 * Give: writes the sentence with that derivation number, 0 to total - 1, into the buffer's first bytes; the others keep
 * their content. Refusals 1 to 10, 16, 20.
 */
uint8_t pumpfennel_unrank(const uint8_t *grammar, size_t grammar_len, uint64_t length, uint64_t number,
                          uint8_t *sentence, size_t sentence_len, uint64_t *total);

/*
 * Number: gives the lowest derivation number among the sentence's derivations, the total of its length, and how many
 * derivations the sentence has. Refusals 1 to 10, 17.
 */
uint8_t pumpfennel_rank(const uint8_t *grammar, size_t grammar_len, const uint8_t *sentence, size_t sentence_len,
                        uint64_t *number, uint64_t *total, uint64_t *derivations);

/*
 * Left: gives the total, how many different sentences of that length with one derivation were heard in that voice, and how
 * many derivations remain. A sentence was heard where a record of it was played in full. Refusals 1 to 9, 22, 10 to 15.
 */
uint8_t pumpfennel_remaining(const uint8_t *grammar, size_t grammar_len, const uint8_t *history, size_t history_len,
                             uint64_t length, uint64_t voice, uint64_t *total, uint64_t *heard, uint64_t *remaining);

/*
 * Left, with a pattern: gives the same figures of the derivations whose sentence fits the pattern: how many there are,
 * how many of the sentences that pumpfennel_remaining counts as heard fit, and how many derivations remain. The length
 * is the pattern's. 10 and 15 don't look at what fits: they read the counts of all derivations, and every sentence of
 * that length heard in that voice. With blanks only the answer is that of pumpfennel_remaining; without a blank,
 * `remaining` is how many derivations that sentence has, or 0 where it was heard. Refusals 1 to 9, 22, 10, 21, 11 to 15.
 */
uint8_t pumpfennel_remaining_matching(const uint8_t *grammar, size_t grammar_len, const uint8_t *history,
                                      size_t history_len, const uint8_t *pattern, size_t pattern_len, uint64_t voice,
                                      uint64_t *total, uint64_t *heard, uint64_t *remaining);

/*
 * Draw: takes the derivation with a sentence unheard in that voice that has exactly `draw` such ones before it, `draw`
 * from 0 to remaining - 1, and writes its sentence into the buffer's first bytes; the others keep their content. Gives
 * what remains, this one counted, and its derivation number. It logs nothing. Refusals 1 to 9, 22, 10 to 16, 20.
 */
uint8_t pumpfennel_draw(const uint8_t *grammar, size_t grammar_len, const uint8_t *history, size_t history_len,
                        uint64_t length, uint64_t voice, uint64_t draw, uint8_t *sentence, size_t sentence_len,
                        uint64_t *remaining, uint64_t *number);

/*
 * Draw, with a pattern: the same among the derivations whose sentence fits the pattern. `draw` and `remaining` count
 * the fitting ones alone; the derivation number is that among all derivations of that length, as pumpfennel_unrank takes
 * it. The length is the pattern's. Refusals 1 to 9, 22, 10, 21, 11 to 16, 20.
 */
uint8_t pumpfennel_draw_matching(const uint8_t *grammar, size_t grammar_len, const uint8_t *history, size_t history_len,
                                 const uint8_t *pattern, size_t pattern_len, uint64_t voice, uint64_t draw,
                                 uint8_t *sentence, size_t sentence_len, uint64_t *remaining, uint64_t *number);

/*
 * Draw, with weights, as a lottery draws: a derivation weighs the product of its words' weights, and each derivation
 * with a sentence unheard in that voice owns as many tickets as it weighs; heard ones own none. Tickets are numbered
 * from 0 to tickets - 1: those of one derivation stand together, and the derivations follow each other by rising
 * derivation number. Takes the derivation that owns `ticket` and writes its sentence into the buffer's first bytes; the
 * others keep their content. Gives how many tickets there are, its own counted, and its derivation number. It logs
 * nothing. `weights` are W bytes, from word 0 up; where each is 1 the answer is that of pumpfennel_draw, and `tickets`
 * is what remains. Refusals 1 to 9, 22, 10, 24, 25, 11 to 16, 20.
 *
 * Whoever takes a ticket from 0 to tickets - 1 at random, each equally likely, draws each unheard derivation in
 * proportion to its weight. The call with ticket 0 tells how many tickets there are; where that is refused by 16,
 * nothing is left. A log may change it, so ask anew before the next draw.
 *
 * 25 looks at total weights where 10 looks at counts: of the same nonterminals at the same lengths, and of all their
 * derivations, heard or not. A word that no rule has needs a weight too, and adds to no total.
 */
uint8_t pumpfennel_draw_weighted(const uint8_t *grammar, size_t grammar_len, const uint8_t *history, size_t history_len,
                                 uint64_t length, uint64_t voice, const uint8_t *weights, size_t weights_len,
                                 uint64_t ticket, uint8_t *sentence, size_t sentence_len, uint64_t *tickets,
                                 uint64_t *number);

/*
 * Log: writes the sentence, played in that voice, as the history's newest record into the buffer, which has
 * PUMPFENNEL_HISTORY_SIZE bytes for the records and this one, and gives how many records there are now. Any bytes are
 * words here. `played` is how many of the words were played: 0 means all, and the sentence is heard then; where playback
 * was broken off it is fewer than the sentence has, and the sentence may be drawn again. Refusals 9, 22, 23, 11 to 14, 19.
 *
 * After the log of what draw q gave, in the same voice and played in full, where the sentence has one derivation:
 * `remaining` is one less, the draws below q give what they gave, and each from q on gives what the next one gave, or is
 * refused as that one was. Of the refusals only 19 can come for such a log.
 */
uint8_t pumpfennel_append(uint8_t *history, size_t history_len, const uint8_t *sentence, size_t sentence_len,
                          uint64_t voice, uint64_t played, uint64_t *records);

#ifdef __cplusplus
}
#endif

#endif
