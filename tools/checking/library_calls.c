/* Calls the functions of the library as a program of C may, and prints what they give: library_calls TEXT TRACE CLAIM ANSWER REFUSED
 *
 * ANSWER is one to TEXT, and REFUSED is a text that the check refuses. tools/check_library runs this with a small stack, and under valgrind. Each
 * buffer is a block of memory of its own with the size that is handed in, so that valgrind sees a byte that is touched beside it. */
#include "denovo.h"
#include "denovo_step.h"
#include <stdio.h>
#include <stdlib.h>
#include <string.h>

struct bytes {
    uint8_t *at;
    size_t size;
};

static struct bytes block(size_t size)
{
    struct bytes made = {malloc(size ? size : 1), size};
    if (!made.at)
        exit(1);
    return made;
}

static struct bytes file(const char *name)
{
    FILE *opened = fopen(name, "rb");
    if (!opened || fseek(opened, 0, SEEK_END) != 0)
        exit(1);
    struct bytes read = block((size_t)ftell(opened));
    rewind(opened);
    if (fread(read.at, 1, read.size, opened) != read.size)
        exit(1);
    fclose(opened);
    return read;
}

/* Command words: a text of up to eight words with blanks between them, each of which ends with a zero byte in the block. */
static struct bytes words(const char *line)
{
    struct bytes made = block(strlen(line) + (*line != 0));
    memcpy(made.at, line, made.size);
    for (size_t at = 0; at < made.size; at++)
        if (made.at[at] == ' ' || made.at[at] == 0)
            made.at[at] = 0;
    return made;
}

/* A call of the program of this name; explain alone takes a text. */
static int32_t called(const char *name, struct bytes given, struct bytes text, struct bytes source, struct bytes out, size_t *written)
{
    if (strcmp(name, "explain") == 0)
        return explain_answer(given.at, given.size, text.at, text.size, source.at, source.size, out.at, out.size, written);
    if (strcmp(name, "view") == 0)
        return view_answer(given.at, given.size, source.at, source.size, out.at, out.size, written);
    if (strcmp(name, "outcomes") == 0)
        return outcomes_answer(given.at, given.size, source.at, source.size, out.at, out.size, written);
    if (strcmp(name, "sweep") == 0)
        return sweep_answer(given.at, given.size, source.at, source.size, out.at, out.size, written);
    if (strcmp(name, "referee") == 0)
        return referee_answer(given.at, given.size, source.at, source.size, out.at, out.size, written);
    return denovo_answer(given.at, given.size, source.at, source.size, out.at, out.size, written);
}

/* A line with the name, the exit code and the length of the answer, and the answer: first into no room, then into a half, then into as much as it
 * needs. */
static void answered(const char *name, const char *line, struct bytes text, struct bytes source)
{
    struct bytes given = words(line), none = {NULL, 0};
    size_t length = 0, half = 0, whole = 0;
    int32_t code = called(name, given, text, source, none, &length);
    struct bytes small = block(length / 2), out = block(length);
    int32_t again = called(name, given, text, source, small, &half);
    int32_t last = called(name, given, text, source, out, &whole);
    int alike = again == code && last == code && half == length && whole == length && memcmp(small.at, out.at, small.size) == 0;
    printf("%s %d %zu %s\n", name, (int)code, length, alike ? "alike" : "differs");
    fwrite(out.at, 1, out.size, stdout);
    free(given.at);
    free(small.at);
    free(out.at);
}

/* A line with the result of opening the text's machine, and whether there is one then. */
static void opened(const char *label, denovo_machine *machine, struct bytes text, uint32_t sets, uint32_t ways)
{
    int32_t code = denovo_open(machine, text.at, text.size, 2, sets, ways, 32768);
    printf("%s: %d %d\n", label, (int)code, machine->at != NULL);
}

/* Steps the machine of a text to its end, always by the first enabled event, and tries an event of a core that isn't there before each. */
static void stepped(struct bytes text, struct bytes refused)
{
    denovo_machine machine = {0};
    denovo_event first, disabled = {0, 15, 0}, unknown = {6, 0, 0};
    size_t enabled = 0, listed = 0;
    int codes[] = {denovo_enabled(&machine, NULL, 0, &listed), denovo_step(&machine, &disabled), (int)denovo_word(&machine, 0), (int)denovo_made(&machine)};
    printf("none: %d %d %d %d\n", codes[0], codes[1], codes[2], codes[3]);
    opened("refused", &machine, refused, 64, 4);
    opened("open", &machine, text, 256, 16);
    opened("usage", &machine, text, 16, 256);
    opened("again", &machine, text, 1, 1);
    opened("and again", &machine, text, 1, 1);
    int steps = 0, faults = 0;
    while (denovo_enabled(&machine, &first, 1, &enabled) == 0 && enabled > 0) {
        faults += denovo_enabled(&machine, NULL, 0, &listed) != 0 || listed != enabled;
        faults += denovo_step(&machine, &disabled) != 3 || denovo_step(&machine, &unknown) != 1 || denovo_made(&machine) != (uint64_t)steps;
        faults += denovo_step(&machine, &first) != 0;
        steps++;
    }
    printf("steps: %d %d\n", steps > 0, faults);
    printf("over: %d %d\n", (int)denovo_step(&machine, &first), denovo_made(&machine) == (uint64_t)steps);
    printf("words: %u %u %u %u\n", denovo_word(&machine, 0), denovo_word(&machine, 1), denovo_word(&machine, 2), denovo_word(&machine, 65536));
    denovo_close(&machine);
    printf("closed: %d %d %d", machine.at != NULL, (int)denovo_step(&machine, &first), (int)denovo_enabled(&machine, &first, 1, &enabled));
    denovo_close(&machine);
    printf(" %d\n", machine.at != NULL);
}

int main(int count, char **names)
{
    if (count != 6)
        return 1;
    struct bytes text = file(names[1]), trace = file(names[2]), claim = file(names[3]), answer = file(names[4]), refused = file(names[5]), none = {NULL, 0};
    answered("denovo", "--seed 7 --banks 2", none, text);
    answered("denovo", "--mode trace", none, text);
    answered("denovo", "--nothing", none, text);
    answered("view", "--mode account", none, trace);
    answered("outcomes", "", none, text);
    answered("sweep", "--seeds 1..9", none, text);
    answered("referee", "--mode judge", none, claim);
    answered("explain", "text", text, answer);
    const char *all[] = {"denovo", "view", "outcomes", "sweep", "referee", "explain"};
    for (int at = 0; at < 6; at++) {
        size_t length = 0;
        int32_t code = called(all[at], none, none, none, none, &length);
        printf("%s of nothing: %d %zu\n", all[at], (int)code, length);
    }
    stepped(text, refused);
    free(text.at);
    free(trace.at);
    free(claim.at);
    free(answer.at);
    free(refused.at);
    return 0;
}
