/* A program of denovo around its function in the library: the command words and standard input, to standard output and the exit code. PROGRAM is
 * its name; where READS_TEXT is defined, its last word names a file with the text, as explain's does. The code in the library is proved, and this
 * isn't. */
#include <stdio.h>
#include <stdlib.h>
#include <string.h>

#include "denovo.h"

#define JOINED(name, end) name##end
#define ANSWER_OF(name) JOINED(name, _answer)
#define UNREAD 6
#define UNWRITTEN 7
#define NO_MEMORY 8

typedef struct Bytes {
    uint8_t *at;
    size_t size;
} Bytes;

static void *memory(void *at, size_t size) {
    void *found = realloc(at, size != 0 ? size : 1);
    if (found == NULL) exit(NO_MEMORY);
    return found;
}

/* All bytes of a file; it ends the program where one can't be read. */
static Bytes read_all(FILE *file) {
    Bytes found = {NULL, 0};
    size_t room = 1 << 16, got;
    found.at = memory(NULL, room);
    while ((got = fread(found.at + found.size, 1, room - found.size, file)) > 0) {
        found.size += got;
        if (found.size == room) found.at = memory(found.at, room *= 2);
    }
    if (ferror(file)) exit(UNREAD);
    return found;
}

/* The command words, each ended by a zero byte. */
static Bytes word_block(int count, char **words) {
    Bytes found = {memory(NULL, 1), 0};
    for (int word = 1; word < count; word++) {
        size_t size = strlen(words[word]) + 1;
        found.at = memory(found.at, found.size + size);
        memcpy(found.at + found.size, words[word], size);
        found.size += size;
    }
    return found;
}

int main(int count, char **words) {
    Bytes block = word_block(count, words);
#ifdef READS_TEXT
    Bytes text = {memory(NULL, 1), 0};
    if (count > 1) {
        FILE *file = fopen(words[count - 1], "rb");
        if (file == NULL) return UNREAD;
        text = read_all(file);
        fclose(file);
    }
#endif
    Bytes source = read_all(stdin);
    size_t room = 1 << 16, written = 0;
    uint8_t *out = NULL;
    int32_t code;
    for (;;) {
        out = memory(out, room);
#ifdef READS_TEXT
        code = ANSWER_OF(PROGRAM)(block.at, block.size, text.at, text.size, source.at, source.size, out, room, &written);
#else
        code = ANSWER_OF(PROGRAM)(block.at, block.size, source.at, source.size, out, room, &written);
#endif
        if (written <= room) break;
        room = written;
    }
    if (fwrite(out, 1, written, stdout) != written || fflush(stdout) != 0) return UNWRITTEN;
    return code;
}
