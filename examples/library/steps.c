/* Steps a text's machine by chance, and says how the words end: steps TEXT SEED
 *
 *     tools/library && cc -O2 -Iinclude examples/library/steps.c .quick/library/libdenovo.a -o /tmp/steps
 *     /tmp/steps examples/stale-copy.s 7 */
#include "denovo_step.h"
#include <stdio.h>
#include <stdlib.h>

#define MOST_EVENTS 1024
#define MOST_TEXT (1 << 20)

/* The next number below a limit, by a seed (xorshift). */
static size_t drawn(uint32_t *seed, size_t limit)
{
    *seed ^= *seed << 13;
    *seed ^= *seed >> 17;
    *seed ^= *seed << 5;
    return *seed % limit;
}

int main(int count, char **words)
{
    static uint8_t text[MOST_TEXT];
    static denovo_event events[MOST_EVENTS];
    denovo_machine machine = {0};
    FILE *file = count == 3 ? fopen(words[1], "rb") : NULL;
    if (!file) {
        fprintf(stderr, "usage: steps TEXT SEED\n");
        return 1;
    }
    size_t size = fread(text, 1, MOST_TEXT, file), enabled = 0;
    uint32_t seed = 2 * (uint32_t)strtoul(words[2], NULL, 10) + 1;
    fclose(file);
    int32_t code = denovo_open(&machine, text, size, 4, 64, 4, 32768);
    while (code == 0 && (code = denovo_enabled(&machine, events, MOST_EVENTS, &enabled)) == 0 && enabled > 0)
        code = denovo_step(&machine, &events[drawn(&seed, enabled < MOST_EVENTS ? enabled : MOST_EVENTS)]);
    if (code == 0)
        printf("%llu events; words 0 to 3: %u %u %u %u\n", (unsigned long long)denovo_made(&machine), denovo_word(&machine, 0),
               denovo_word(&machine, 1), denovo_word(&machine, 2), denovo_word(&machine, 3));
    else
        fprintf(stderr, "steps: the call ended with %d\n", (int)code);
    denovo_close(&machine);
    return code;
}
