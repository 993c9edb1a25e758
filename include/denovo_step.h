/* A machine of denovo that a program steps, event by event.
 *
 *     denovo_machine machine = {0};
 *     if (denovo_open(&machine, text, text_size, 4, 64, 4, 32768) == 0) {
 *         denovo_event events[64];
 *         size_t count;
 *         while (denovo_enabled(&machine, events, 64, &count) == 0 && count > 0)
 *             denovo_step(&machine, &events[0]);
 *         printf("%u\n", denovo_word(&machine, 0));
 *         denovo_close(&machine);
 *     }
 *
 * Link with libdenovo.a or libdenovo.so (tools/library makes both). What each function promises is proved of the machine behind the pointer:
 * the machine of the text when it is opened, the enabled events exactly, and the state to which an event leads (crates/denovo_c/src/lib.rt). So after
 * any steps the machine is in the state of a run of the text, which is complete where no event is enabled.
 *
 * What the caller owes, and nothing tests, besides what include/denovo.h says of pointers, sizes and stack (text and out may be null where their
 * size is 0):
 *   - a denovo_machine is {0} before the first call, and else what the last call left in it. So it isn't copied and then used twice, `at` isn't
 *     changed, and nothing is read or written behind it;
 *   - all calls of one machine are made by one thread. Machines of several threads are independent. */
#ifndef DENOVO_STEP_H
#define DENOVO_STEP_H

#include <stddef.h>
#include <stdint.h>

#ifdef __cplusplus
extern "C" {
#endif

/* A machine, or none: at is null then. */
typedef struct denovo_machine {
    void *at;
} denovo_machine;

/* An event.
 *   kind 0   an instruction of the core `actor`, or the request for what it lacks
 *   kind 1   the core `actor` evicts the data word `number`
 *   kind 2   the core `actor` arrives at the end of its phase
 *   kind 3   message `number` of the core `actor` is handled; a sender's messages are counted from 0
 *   kind 4   message `number` of the bank `actor` is handled
 *   kind 5   message `number` of the barrier controller is handled
 * A number that isn't named is 0. */
typedef struct denovo_event {
    uint32_t kind, actor, number;
} denovo_event;

/* Opens the machine of a text, as it is when a run begins: 1 to 16 banks, 1 to 256 sets, 1 to 16 ways, and a fuel of 1 to 32768. A machine
 * that was open is closed first. The result is 0; or 1 if a number is out of its range, 2 if the text is refused (denovo_answer with --mode check
 * says why), and 8 if there is no memory, also where the text would be refused: then there is no machine. */
int32_t denovo_open(denovo_machine *machine, const uint8_t *text, size_t text_size, uint32_t banks, uint32_t sets, uint32_t ways, uint32_t fuel);

/* Lists the enabled events: for each core its instruction, its evictions and its arrival, then the handling of each message in flight. `written`
 * becomes their number, and `out` shows the first of them, as many as fit. The result is 0; 1 if there is no machine, and 8 if an event is enabled
 * and there is no memory. A run is over where none is enabled. Each place of each cache is looked at once. */
int32_t denovo_enabled(denovo_machine *machine, denovo_event *out, size_t out_size, size_t *written);

/* Makes an event. The result is 0; or 1 if there is no machine or no such kind of event, or 4,000,000,000 events were made; 3 if the event isn't
 * enabled; and 8 if it is enabled and there is no memory. Then the machine is as before. */
int32_t denovo_step(denovo_machine *machine, const denovo_event *event);

/* The value of a data word, from 0: that of a core's pending entry if there is one, else that at its home or in its owner's entry. 0 for any other
 * word, and without a machine. */
uint32_t denovo_word(denovo_machine *machine, uint32_t word);

/* How many events were made; 0 without a machine. */
uint64_t denovo_made(denovo_machine *machine);

/* Closes the machine, if there is one. */
void denovo_close(denovo_machine *machine);

#ifdef __cplusplus
}
#endif

#endif
