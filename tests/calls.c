/*
 * Makes the calls that standard input names, a line each, and prints each answer before it reads on.
 *
 *   check_grammar GRAMMAR             check_history HISTORY
 *   count GRAMMAR LENGTH              unrank GRAMMAR LENGTH NUMBER BUFFER
 *   rank GRAMMAR SENTENCE             remaining GRAMMAR HISTORY LENGTH VOICE
 *   remaining_matching GRAMMAR HISTORY PATTERN VOICE
 *   draw GRAMMAR HISTORY LENGTH VOICE DRAW BUFFER
 *   draw_matching GRAMMAR HISTORY PATTERN VOICE DRAW BUFFER
 *   draw_weighted GRAMMAR HISTORY LENGTH VOICE WEIGHTS TICKET BUFFER
 *   append BUFFER SENTENCE VOICE PLAYED
 *
 * Bytes are in hex after an x, which stands alone where there are none; null is NULL with length 0. An answer is the
 * refusal and the figures; after a call with a buffer, the buffer too. Figures held other numbers before. What a call may
 * only read lies in memory that can't be written, and right behind every run of bytes lies memory that can't be read.
 * Each call has a thread of its own with a stack of 256 KiB; the last line has, for each call in the order above, the
 * most bytes of it that were used.
 */
#define _GNU_SOURCE
#include "pumpfennel.h"

#include <inttypes.h>
#include <pthread.h>
#include <stdio.h>
#include <stdlib.h>
#include <string.h>
#include <sys/mman.h>

#define CHECK(holds) ((holds) ? (void)0 : (fprintf(stderr, "calls: line %d: %s\n", __LINE__, #holds), exit(2)))
#define PAGE 4096
#define AREA (16 * PAGE)
#define STACK (256 * 1024)
#define PAINT 0xa5
#define CALLS 11
#define RUNS 4 /* the most runs of bytes that a call takes */

struct bytes {
    uint8_t *area, *at;
    size_t size;
};

static const char *const names[CALLS] = {"check_grammar", "check_history",      "count", "unrank",        "rank",
                                         "remaining",     "remaining_matching", "draw",  "draw_matching", "draw_weighted",
                                         "append"};
static const char *const kinds[CALLS] = {"r",    "r",      "rn",     "rnnw",    "rr",  "rrnn",
                                         "rrrn", "rrnnnw", "rrrnnw", "rrnnrnw", "wrnn"};
static struct bytes data[RUNS];
static uint64_t numbers[3], figures[3];
static uint8_t answer;
static int call, figure_count;
static uintptr_t top;

static void *make_call(void *unused) {
    struct bytes a = data[0], b = data[1], c = data[2], d = data[3];
    uint64_t m = numbers[0], n = numbers[1], q = numbers[2], *f = figures, *g = figures + 1, *h = figures + 2;
    top = (uintptr_t)__builtin_frame_address(0);
    switch (call) {
    case 0: figure_count = 2, answer = pumpfennel_check_grammar(a.at, a.size, f, g); break;
    case 1: figure_count = 1, answer = pumpfennel_check_history(a.at, a.size, f); break;
    case 2: figure_count = 1, answer = pumpfennel_count(a.at, a.size, m, f); break;
    case 3: figure_count = 1, answer = pumpfennel_unrank(a.at, a.size, m, n, b.at, b.size, f); break;
    case 4: figure_count = 3, answer = pumpfennel_rank(a.at, a.size, b.at, b.size, f, g, h); break;
    case 5: figure_count = 3, answer = pumpfennel_remaining(a.at, a.size, b.at, b.size, m, n, f, g, h); break;
    case 6: figure_count = 3, answer = pumpfennel_remaining_matching(a.at, a.size, b.at, b.size, c.at, c.size, m, f, g, h); break;
    case 7: figure_count = 2, answer = pumpfennel_draw(a.at, a.size, b.at, b.size, m, n, q, c.at, c.size, f, g); break;
    case 8:
        figure_count = 2;
        answer = pumpfennel_draw_matching(a.at, a.size, b.at, b.size, c.at, c.size, m, n, d.at, d.size, f, g);
        break;
    case 9:
        figure_count = 2;
        answer = pumpfennel_draw_weighted(a.at, a.size, b.at, b.size, m, n, c.at, c.size, q, d.at, d.size, f, g);
        break;
    case 10: figure_count = 1, answer = pumpfennel_append(a.at, a.size, b.at, b.size, m, n, f); break;
    }
    return unused;
}

static uint8_t *area(size_t size) {
    uint8_t *start = mmap(NULL, size + 2 * PAGE, PROT_NONE, MAP_PRIVATE | MAP_ANONYMOUS, -1, 0);
    CHECK(start != MAP_FAILED && mprotect(start + PAGE, size, PROT_READ | PROT_WRITE) == 0);
    return start + PAGE;
}

static void read_bytes(const char *text, struct bytes *to, int writable) {
    if (strcmp(text, "null") == 0) {
        to->at = NULL, to->size = 0;
        return;
    }
    CHECK(text[0] == 'x' && strlen(text) / 2 <= AREA);
    to->size = strlen(text) / 2;
    to->at = to->area + AREA - to->size;
    CHECK(mprotect(to->area, AREA, PROT_READ | PROT_WRITE) == 0);
    for (size_t i = 0; i < to->size; i++) CHECK(sscanf(text + 1 + 2 * i, "%2" SCNx8, to->at + i) == 1);
    if (!writable) CHECK(mprotect(to->area, AREA, PROT_READ) == 0);
}

static struct bytes *read_arguments(const char *kind) {
    struct bytes *next = data, *buffer = NULL;
    uint64_t *number = numbers;
    for (; *kind != 0; kind++) {
        const char *text = strtok(NULL, " \n");
        CHECK(text != NULL);
        if (*kind == 'n') {
            *number++ = strtoull(text, NULL, 10);
        } else {
            if (*kind == 'w') buffer = next;
            read_bytes(text, next++, *kind == 'w');
        }
    }
    return buffer;
}

int main(void) {
    char *line = NULL;
    size_t room = 0, most[CALLS] = {0};
    uint8_t *stack = area(STACK);
    pthread_attr_t attributes;
    CHECK(pthread_attr_init(&attributes) == 0 && pthread_attr_setstack(&attributes, stack, STACK) == 0);
    for (int i = 0; i < RUNS; i++) data[i].area = area(AREA);
    while (getline(&line, &room, stdin) > 0) {
        const char *name = strtok(line, " \n");
        for (call = 0; call < CALLS && strcmp(names[call], name) != 0; call++) {}
        CHECK(call < CALLS);
        struct bytes *buffer = read_arguments(kinds[call]);
        for (int i = 0; i < 3; i++) figures[i] = UINT64_MAX - i;
        memset(stack, PAINT, STACK);
        pthread_t thread;
        CHECK(pthread_create(&thread, &attributes, make_call, NULL) == 0 && pthread_join(thread, NULL) == 0);
        uint8_t *deepest = stack;
        while (*deepest == PAINT) deepest++;
        size_t used = top - (uintptr_t)deepest;
        if (used > most[call]) most[call] = used;
        printf("%d", answer);
        for (int i = 0; i < figure_count; i++) printf(" %" PRIu64, figures[i]);
        if (buffer != NULL) printf(" x");
        for (size_t i = 0; buffer != NULL && i < buffer->size; i++) printf("%02x", buffer->at[i]);
        printf("\n");
        fflush(stdout);
    }
    for (int i = 0; i < CALLS; i++) printf(i == 0 ? "%zu" : " %zu", most[i]);
    printf("\n");
    return 0;
}
