/* The programs of denovo as functions: command words and what a program reads in memory, to its answer and its exit code.
 *
 * Link with libdenovo.a or libdenovo.so (tools/library makes both) and the C library. What each function promises is proved of the bytes that its
 * caller sees: the answer is the program's own, as docs/PROMISES.md says it of each program.
 *
 * Parameters
 *   words       the command words, without the program's name, each ended by a zero byte: "--seed\0" "7\0" has 9 bytes. A word that isn't
 *               UTF-8 is refused, like any word that the command doesn't take.
 *   source      what the program reads from standard input: a text (denovo, outcomes, sweep), the document of a run (view), a claim (referee), an answer
 *               (explain).
 *   text        explain alone: the text that the answer was printed for. The words name it; any name will do.
 *   out         becomes the first bytes of the answer, as many as fit. Nothing else in it changes.
 *   written     becomes the length of the whole answer in bytes. If it is above out_size, call again with so much room: as with snprintf, the
 *               answer doesn't depend on the room.
 * The result is the program's exit code: 0 to 8, as docs/COMMAND.md says, and never 6. denovo answers with one worker, whatever --workers says.
 *
 * What the caller owes, and nothing tests:
 *   - no pointer is null. words, text, source and out may be null where their size is 0, and count as empty then: no contract says so, but
 *     tools/check_library tries it of each function;
 *   - each pointer points to at least as many bytes as its size says, and written to one size_t;
 *   - out and written overlap nothing else that is handed in, and no other thread uses them during the call;
 *   - every size is below 2^63;
 *   - malloc, realloc and free are one allocator, and the call isn't made from a signal handler.
 * No function keeps anything between calls, so calls in several threads are independent. No contract says how much stack a call needs:
 * tools/check_library makes every kind of call with a stack of 128 KiB. */
#ifndef DENOVO_H
#define DENOVO_H

#include <stddef.h>
#include <stdint.h>

#ifdef __cplusplus
extern "C" {
#endif

/* What ./denovo answers to a text: a run, a check, a listing, a proof, by its options. */
int32_t denovo_answer(const uint8_t *words, size_t words_size, const uint8_t *source, size_t source_size,
                      uint8_t *out, size_t out_size, size_t *written);

/* What ./view shows of the document of a run: a chart, an account, a state, the data of a page. */
int32_t view_answer(const uint8_t *words, size_t words_size, const uint8_t *source, size_t source_size,
                    uint8_t *out, size_t out_size, size_t *written);

/* What ./outcomes says that every run of a text has in common: settled (0), or why it is open (3). */
int32_t outcomes_answer(const uint8_t *words, size_t words_size, const uint8_t *source, size_t source_size,
                        uint8_t *out, size_t out_size, size_t *written);

/* What ./sweep prints of the runs of a text by many seeds: a summary, a table of answers, or a row for each run. */
int32_t sweep_answer(const uint8_t *words, size_t words_size, const uint8_t *source, size_t source_size,
                     uint8_t *out, size_t out_size, size_t *written);

/* What ./referee says of another simulator's claim. */
int32_t referee_answer(const uint8_t *words, size_t words_size, const uint8_t *source, size_t source_size,
                       uint8_t *out, size_t out_size, size_t *written);

/* What ./explain says of an answer to a text. */
int32_t explain_answer(const uint8_t *words, size_t words_size, const uint8_t *text, size_t text_size,
                       const uint8_t *source, size_t source_size, uint8_t *out, size_t out_size, size_t *written);

#ifdef __cplusplus
}
#endif

#endif
