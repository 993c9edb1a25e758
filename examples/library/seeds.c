/* Runs a text by many seeds, and counts the answers that differ: seeds TEXT FIRST LAST
 *
 *     tools/library && cc -O2 -Iinclude examples/library/seeds.c .quick/library/libdenovo.a -o /tmp/seeds
 *     /tmp/seeds examples/signature.s 1 20 */
#include "denovo.h"
#include <stdio.h>
#include <stdlib.h>
#include <string.h>

struct bytes {
    uint8_t *at;
    size_t size;
};

static struct bytes file(const char *name)
{
    struct bytes read = {malloc(1 << 21), 0};
    FILE *opened = fopen(name, "rb");
    if (!opened || !read.at) {
        fprintf(stderr, "seeds: %s can't be read\n", name);
        exit(1);
    }
    read.size = fread(read.at, 1, 1 << 21, opened);
    fclose(opened);
    return read;
}

/* The answer to the text by this seed. */
static struct bytes answer(struct bytes text, unsigned long seed, int32_t *code)
{
    char words[64];
    struct bytes answer = {malloc(4096), 0};
    size_t room = 4096;
    int count = snprintf(words, sizeof words, "--seed%c%lu%c", 0, seed, 0);
    for (;;) {
        *code = denovo_answer((const uint8_t *)words, (size_t)count, text.at, text.size, answer.at, room, &answer.size);
        if (answer.size <= room)
            return answer;
        room = answer.size;
        answer.at = realloc(answer.at, room);
    }
}

/* The lines before the first grant or count: outcome, ends of tasks, and words. */
static size_t ending(struct bytes answer)
{
    size_t at = 0;
    while (at < answer.size && memcmp(answer.at + at, "grant ", 6) != 0 && memcmp(answer.at + at, "count ", 6) != 0) {
        while (at < answer.size && answer.at[at] != '\n')
            at++;
        at++;
    }
    return at < answer.size ? at : answer.size;
}

int main(int count, char **words)
{
    if (count != 4) {
        fprintf(stderr, "usage: seeds TEXT FIRST LAST\n");
        return 1;
    }
    struct bytes text = file(words[1]);
    unsigned long first = strtoul(words[2], NULL, 10), last = strtoul(words[3], NULL, 10), differ = 0;
    int32_t code, first_code;
    struct bytes kept = answer(text, first, &first_code);
    for (unsigned long seed = first + 1; seed <= last; seed++) {
        struct bytes other = answer(text, seed, &code);
        differ += code != first_code || ending(kept) != ending(other) || memcmp(kept.at, other.at, ending(kept)) != 0;
        free(other.at);
    }
    printf("exit code %d; %lu of %lu other seeds end otherwise\n", (int)first_code, differ, last - first);
    free(kept.at);
    free(text.at);
    return 0;
}
