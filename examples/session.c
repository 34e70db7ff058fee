/*
 * A session: draws sentences that the patient hasn't heard in the talker's voice, and logs each in the diary as played in
 * full.
 *
 *   session BANK DIARY LENGTH COUNT [VOICE [SOURCE]]
 *   session BANK DIARY PATTERN COUNT [VOICE [SOURCE]]
 *
 * BANK and DIARY are files in document 01's layout; where there is no file DIARY, a new diary begins. PATTERN is a word
 * or _ for each place, parted by spaces, as in "3 _ _ 31 _": then only sentences that fit are drawn. VOICE is 0 to 15, 0
 * if none is named; SOURCE is a file of random bytes, /dev/urandom if none is named. Each sentence is a line: its
 * derivation number, a colon, its words. The diary is saved with a sentence before that is printed, so that nothing
 * played is missing in it.
 *
 * Exit status: 0 all drawn; 1 stopped early, since nothing is left or the diary is full; 2 an error.
 */
#define _POSIX_C_SOURCE 200809L
#include "pumpfennel.h"

#include <errno.h>
#include <inttypes.h>
#include <limits.h>
#include <stdio.h>
#include <stdlib.h>
#include <string.h>
#include <unistd.h>

static void fail(const char *what, const char *why) {
    fprintf(stderr, "session: %s: %s\n", what, why);
    exit(2);
}

static void accepted(const char *what, uint8_t refusal) {
    if (refusal != PUMPFENNEL_ACCEPTED) {
        fprintf(stderr, "session: %s: refused %d: %s\n", what, refusal, pumpfennel_refusal_text(refusal));
        exit(2);
    }
}

/* Reads a file's first bytes and gives how many. One that is not there is an error, or a new one of `fresh` bytes. */
static size_t load(const char *name, uint8_t *bytes, size_t most, size_t fresh) {
    FILE *file = fopen(name, "rb");
    if (file == NULL && errno == ENOENT && fresh != 0) {
        fprintf(stderr, "session: %s: a new diary\n", name);
        return fresh;
    }
    if (file == NULL) fail(name, strerror(errno));
    size_t size = fread(bytes, 1, most, file);
    if (ferror(file)) fail(name, "cannot be read");
    fclose(file);
    return size;
}

/* Writes a new file and puts it in the old one's place, so that a failure leaves the old one. */
static void save(const char *name, const uint8_t *bytes, size_t size) {
    static char beside[4096];
    if (snprintf(beside, sizeof beside, "%s.new", name) >= (int)sizeof beside) fail(name, "name too long");
    FILE *file = fopen(beside, "wb");
    if (file == NULL) fail(beside, strerror(errno));
    int written = fwrite(bytes, 1, size, file) == size && fflush(file) == 0 && fsync(fileno(file)) == 0;
    if (fclose(file) != 0 || !written || rename(beside, name) != 0) fail(name, "cannot be saved");
}

/*
 * A number below `bound`, each equally likely: the rest of eight bytes, low byte first. The last 2^64 mod bound numbers
 * that eight bytes can be are passed over, since they would favour the first ones.
 */
static uint64_t below(uint64_t bound, FILE *source) {
    const uint64_t over = (UINT64_MAX % bound + 1) % bound;
    for (;;) {
        uint8_t bytes[8];
        uint64_t number = 0;
        if (fread(bytes, 1, sizeof bytes, source) != sizeof bytes) fail("source", "no more bytes");
        for (int i = 7; i >= 0; i--) number = number << 8 | bytes[i];
        if (number <= UINT64_MAX - over) return number % bound;
    }
}

static uint64_t numeral(const char *text) {
    char *end;
    errno = 0;
    uint64_t value = strtoull(text, &end, 10);
    if (text[0] < '0' || text[0] > '9' || *end != 0 || errno != 0) fail(text, "not a number");
    return value;
}

/* A pattern's bytes, and how many; none where the text is a length. */
static size_t pattern_of(const char *text, uint8_t *pattern, size_t most) {
    size_t places = 0;
    if (strpbrk(text, " _") == NULL) return 0;
    for (const char *at = text; *at != 0;) {
        char *end = (char *)at + 1;
        unsigned long word = *at == '_' ? PUMPFENNEL_BLANK : *at >= '0' && *at <= '9' ? strtoul(at, &end, 10) : ULONG_MAX;
        if (word > UINT8_MAX || (*at != '_' && word == PUMPFENNEL_BLANK) || places == most || (*end != 0 && *end != ' '))
            fail(text, "not a pattern");
        pattern[places++] = (uint8_t)word;
        at = *end == ' ' ? end + 1 : end;
    }
    return places;
}

int main(int argc, char **argv) {
    static uint8_t bank[PUMPFENNEL_LARGEST_GRAMMAR + 1]; /* a longer bank is cut, and refused all the same */
    static uint8_t diary[PUMPFENNEL_LARGEST_HISTORY];
    uint8_t sentence[PUMPFENNEL_LONGEST_SENTENCE], pattern[PUMPFENNEL_LONGEST_SENTENCE];
    uint64_t nonterminals, words, records, total, heard, left, number;
    if (argc < 5 || argc > 7) fail("usage", "session BANK DIARY LENGTH|PATTERN COUNT [VOICE [SOURCE]]");
    size_t bank_size = load(argv[1], bank, sizeof bank, 0);
    size_t diary_size = load(argv[2], diary, sizeof diary, PUMPFENNEL_HISTORY_SIZE(0));
    size_t places = pattern_of(argv[3], pattern, sizeof pattern);
    uint64_t length = places != 0 ? places : numeral(argv[3]);
    uint64_t count = numeral(argv[4]), voice = argc > 5 ? numeral(argv[5]) : 0;
    const char *name = argc > 6 ? argv[6] : "/dev/urandom";
    FILE *source = fopen(name, "rb");
    if (source == NULL) fail(name, strerror(errno));

    /* The diary is checked with the size that its file has: cut short, it must not pass for one with zeros behind. */
    accepted(argv[1], pumpfennel_check_grammar(bank, bank_size, &nonterminals, &words));
    accepted(argv[2], pumpfennel_check_history(diary, diary_size, &records));
    for (; count > 0; count--) {
        accepted("left", places != 0 ? pumpfennel_remaining_matching(bank, bank_size, diary, sizeof diary, pattern, places,
                                                                     voice, &total, &heard, &left)
                                     : pumpfennel_remaining(bank, bank_size, diary, sizeof diary, length, voice, &total,
                                                            &heard, &left));
        if (left == 0) {
            fprintf(stderr, "session: nothing is left: %" PRIu64 " of %" PRIu64 " were heard in voice %" PRIu64 "\n", heard,
                    total, voice);
            return 1;
        }
        uint64_t draw = below(left, source);
        accepted("draw", places != 0 ? pumpfennel_draw_matching(bank, bank_size, diary, sizeof diary, pattern, places, voice,
                                                                draw, sentence, sizeof sentence, &left, &number)
                                     : pumpfennel_draw(bank, bank_size, diary, sizeof diary, length, voice, draw, sentence,
                                                       sizeof sentence, &left, &number));
        const uint64_t played = 0; /* in full; where playback was broken off, how many words were played */
        uint8_t refusal = pumpfennel_append(diary, sizeof diary, sentence, length, voice, played, &records);
        if (refusal == PUMPFENNEL_HISTORY_FULL) {
            fprintf(stderr, "session: %s: %s\n", argv[2], pumpfennel_refusal_text(refusal));
            return 1;
        }
        accepted("log", refusal);
        save(argv[2], diary, PUMPFENNEL_HISTORY_SIZE(records));
        printf("%" PRIu64 ":", number);
        for (uint64_t i = 0; i < length; i++) printf(" %d", sentence[i]);
        printf("\n");
        fflush(stdout);
    }
    return 0;
}
