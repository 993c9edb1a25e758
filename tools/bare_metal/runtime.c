/* Runs the tasks of a text on the harts of a machine without an operating system: each task on the hart of its core, in user mode.
 *
 * The code of the tasks is that of the text, word by word, at its own addresses: pages of Sv32 lead from 0x1000 and 0x10000000 to where code and
 * data lie. An ecall leads here, to the end of the task, to a lock, or to its release. Locks are words that AMOs take. Between two phases is a
 * barrier of AMOs. Data pages give no permission, so that each load and store leads here too: the hart does it by an instruction of the same
 * width, and writes down what a load found. At the end the first hart writes grants and releases, ends of tasks, loads and the memory to the serial port.
 *
 * NATIVE maps the data, so that loads and stores are the task's own, and none is written down.
 * These make it wrong, for tests: EARLY_CORE=N lets core N go on before the barrier; PLAIN_LOCK takes locks by a load and a store, WINDOW
 * microseconds apart. SHAKE=N waits up to N turns of a loop before each access. */
#include <stdint.h>

typedef uint32_t u32;
typedef volatile uint32_t shared;

enum { CORES = 16, PHASES = 64, LOCKS = 32, MOST_TURNS = 1 << 17, MOST_LOADS = 1 << 17 };
enum { PAGE = 4096, CODE = 0x1000, DATA = 0x10000000 };
enum { VALID = 1, READ = 2, WRITE = 4, EXECUTE = 8, USER = 16, USED = 0xc0 };
/* how a task ended; a cause of the machine is added to TRAPPED */
enum { FINISHED = 1, NO_CALL, NO_LOCK, HELD, NOT_HELD, HELD_END, TRAPPED };
/* what a mark says: the adapters for logs read these */
enum { BEGINS = 1, GRANTED, RELEASED, ENDS };

struct task { u32 entry, argument; };
struct end { u32 kind, pc, value, first_load, loads; };
struct access { u32 word, value; };
/* a grant or a release of a lock */
struct turn { u32 kind, phase, core, lock; };
struct frame { u32 x[32]; };

extern const u32 denovo_phases, denovo_words, denovo_code_words, denovo_locks, denovo_cores;
extern const struct task denovo_tasks[][CORES];
extern u32 denovo_code[];
extern shared denovo_data[];

__attribute__((section(".marks"))) shared marks[CORES];
__attribute__((aligned(PAGE))) static u32 root[1024], code_pages[1024], data_pages[1024];
static shared ready, over, made_turns, locks[LOCKS], arrived[PHASES];
static struct turn turns[MOST_TURNS];
static struct end ends[PHASES][CORES];
static struct access loads[CORES][MOST_LOADS];
static u32 phase_of[CORES], held[CORES], made_loads[CORES];

#define READ_CSR(name) ({ u32 read_; __asm__ volatile("csrr %0, " #name : "=r"(read_)); read_; })
#define WRITE_CSR(name, value) __asm__ volatile("csrw " #name ", %0" : : "r"(value) : "memory")

static void fence(void) { __asm__ volatile("fence rw, rw" : : : "memory"); }

static u32 swap(shared *at, u32 value)
{
    u32 old;
    __asm__ volatile("amoswap.w.aqrl %0, %2, (%1)" : "=r"(old) : "r"(at), "r"(value) : "memory");
    return old;
}

static u32 add(shared *at, u32 value)
{
    u32 old;
    __asm__ volatile("amoadd.w.aqrl %0, %2, (%1)" : "=r"(old) : "r"(at), "r"(value) : "memory");
    return old;
}

/* ---------------------------------------------------------------- the machine virt of QEMU: time, serial port, and the end */

static shared *const time_now = (shared *)0x0200bff8;     /* ten million a second, in two words */
static shared *const time_of_alarm = (shared *)0x02004000; /* two words for each hart */
static volatile uint8_t *const serial = (volatile uint8_t *)0x10000000;
static shared *const finisher = (shared *)0x00100000;

static void put(char letter)
{
    while (!(serial[5] & 0x20)) { }
    serial[0] = (uint8_t)letter;
}

static void put_text(const char *text)
{
    while (*text) put(*text++);
}

/* a number behind a blank, in hexadecimal digits */
static void put_number(u32 number)
{
    int shift = 28;
    put(' ');
    while (shift > 0 && !(number >> shift)) shift -= 4;
    for (; shift >= 0; shift -= 4) put("0123456789abcdef"[number >> shift & 15]);
}

/* Sleeps for some 50 microseconds, so that other harts get the processors of the host. The alarm wakes the hart, and isn't taken. */
static void nap(void)
{
    shared *alarm = time_of_alarm + 2 * READ_CSR(mhartid);
    uint64_t until = ((uint64_t)time_now[1] << 32 | time_now[0]) + 500;
    alarm[1] = 0xffffffff, alarm[0] = (u32)until, alarm[1] = (u32)(until >> 32);
    WRITE_CSR(mie, 0x80);
    __asm__ volatile("wfi" : : : "memory");
    WRITE_CSR(mie, 0);
}

/* Waits until a word has a value or, if is_least is set, that value or more: first in a loop, then with naps. */
static void wait_for(shared *word, u32 value, int is_least)
{
    for (u32 turn = 0; is_least ? *word < value : *word != value; turn++)
        if (turn >= 1000) nap();
}

/* ---------------------------------------------------------------- locks and the barrier */

static void mark(u32 core, u32 kind, u32 number)
{
    marks[core] = kind << 16 | number;
}

/* a pause of some turns of a loop, another one each time */
static void shake(u32 core)
{
#ifdef SHAKE
    static u32 states[CORES];
    u32 state = states[core] ? states[core] : *time_now * 2654435761u + core + 1;
    state ^= state << 13;
    state ^= state >> 17;
    state ^= state << 5;
    states[core] = state;
    for (u32 turn = state % SHAKE; turn > 0; turn--) __asm__ volatile("");
#else
    (void)core;
#endif
}

static void take(shared *lock)
{
#ifdef PLAIN_LOCK
    wait_for(lock, 0, 0);
    for (u32 from = *time_now; *time_now - from < 10u * WINDOW;) { }
    *lock = 1;
    fence();
#else
    while (swap(lock, 1)) wait_for(lock, 0, 0);
#endif
}

/* Writes down a grant or a release, while the lock is held: so those of one lock have their numbers in their order. */
static void note(u32 core, u32 kind, u32 lock)
{
    u32 number = add(&made_turns, 1);
    if (number < MOST_TURNS) turns[number] = (struct turn){kind, phase_of[core], core, lock};
    mark(core, kind, lock);
}

static void acquire(u32 core, u32 lock)
{
    take(&locks[lock]);
    held[core] |= 1u << lock;
    note(core, GRANTED, lock);
}

static void release(u32 core, u32 lock)
{
    held[core] &= ~(1u << lock);
    note(core, RELEASED, lock);
    swap(&locks[lock], 0);
}

static u32 cores_in_all(void)
{
    u32 count = 0;
    for (u32 core = 0; core < CORES; core++) count += denovo_cores >> core & 1;
    return count;
}

static void wait_for_all(shared *count)
{
    wait_for(count, cores_in_all(), 1);
    fence();
}

static void barrier(u32 core, u32 phase)
{
    add(&arrived[phase], 1);
#ifdef EARLY_CORE
    if (core == EARLY_CORE) return;
#endif
    (void)core;
    wait_for_all(&arrived[phase]);
}

/* ---------------------------------------------------------------- what is written at the end */

static void put_task(u32 phase, u32 core)
{
    struct end end = ends[phase][core];
    put_text("task"); put_number(phase); put_number(core); put_number(end.kind); put_number(end.pc); put_number(end.value); put('\n');
    for (u32 at = end.first_load; at < end.first_load + end.loads; at++) {
        put_text("load"); put_number(loads[core][at].word); put_number(loads[core][at].value); put('\n');
    }
}

static void put_all(void)
{
    put_text("denovo-run 1\n");
    for (u32 number = 0; number < made_turns; number++) {
        struct turn turn = turns[number];
        put_text(turn.kind == GRANTED ? "grant" : "release"); put_number(turn.phase); put_number(turn.core); put_number(turn.lock); put('\n');
    }
    for (u32 phase = 0; phase < denovo_phases; phase++)
        for (u32 core = 0; core < CORES; core++)
            if (ends[phase][core].kind) put_task(phase, core);
    for (u32 word = 0; word < denovo_words; word++)
        if (denovo_data[word]) { put_text("word"); put_number(word); put_number(denovo_data[word]); put('\n'); }
    put_text("end\n");
}

static void stop(u32 core)
{
    static shared stopped;
    add(&stopped, 1);
    if (denovo_cores & ((1u << core) - 1)) for (;;) __asm__ volatile("wfi");
    wait_for_all(&stopped);
    put_all();
    *finisher = 0x5555;
    for (;;) { }
}

/* ---------------------------------------------------------------- tasks */

/* Leads to the hart's next task: waits at the barrier of each phase in which it has none. */
static void go_on(u32 core, struct frame *frame)
{
    for (; phase_of[core] < denovo_phases && !over; phase_of[core]++) {
        struct task task = denovo_tasks[phase_of[core]][core];
        if (task.entry) {
            for (u32 number = 0; number < 32; number++) frame->x[number] = 0;
            frame->x[10] = task.argument;
            WRITE_CSR(mepc, task.entry);
            ends[phase_of[core]][core].first_load = made_loads[core];
            mark(core, BEGINS, phase_of[core]);
            return;
        }
        barrier(core, phase_of[core]);
    }
    stop(core);
}

/* The task has ended. If it didn't finish, no phase follows. */
static void end_task(u32 core, struct frame *frame, u32 kind, u32 pc, u32 value)
{
    struct end *end = &ends[phase_of[core]][core];
    mark(core, ENDS, kind);
    end->kind = kind, end->pc = pc, end->value = value;
    end->loads = made_loads[core] - end->first_load;
    if (kind != FINISHED) over = 1;
    barrier(core, phase_of[core]++);
    go_on(core, frame);
}

static void call(u32 core, struct frame *frame, u32 pc)
{
    u32 number = frame->x[17], lock = frame->x[10];
    u32 is_held = lock < LOCKS && held[core] >> lock & 1;
    if (number == 0)
        end_task(core, frame, held[core] ? HELD_END : FINISHED, pc, held[core]);
    else if (number > 2)
        end_task(core, frame, NO_CALL, pc, number);
    else if (lock >= denovo_locks)
        end_task(core, frame, NO_LOCK, pc, lock);
    else if (is_held != number - 1)
        end_task(core, frame, is_held ? HELD : NOT_HELD, pc, lock);
    else {
        if (number == 1) acquire(core, lock);
        else release(core, lock);
        WRITE_CSR(mepc, pc + 4);
    }
}

static u32 extended(u32 part, u32 width, u32 is_unsigned)
{
    u32 unused = 32 - 8 * width;
    return is_unsigned ? part << unused >> unused : (u32)((int32_t)(part << unused) >> unused);
}

/* A load or store of the task at this address: done here by an instruction of the same width. Whether it was one that has a place. */
static int access(u32 core, struct frame *frame, u32 pc, u32 address)
{
    u32 instruction = denovo_code[(pc - CODE) / 4], width = 1u << (instruction >> 12 & 3), word = (address - DATA) / 4;
    uintptr_t at = (uintptr_t)denovo_data + (address - DATA);
    if (address % width || word >= denovo_words) return 0;
    shake(core);
    if (instruction & 0x20) {
        u32 value = frame->x[instruction >> 20 & 31];
        if (width == 1) *(volatile uint8_t *)at = (uint8_t)value;
        else if (width == 2) *(volatile uint16_t *)at = (uint16_t)value;
        else *(shared *)at = value;
        return 1;
    }
    u32 value = denovo_data[word], number = made_loads[core]++, target = instruction >> 7 & 31;
    if (number < MOST_LOADS) loads[core][number] = (struct access){word, value};
    if (target) frame->x[target] = extended(value >> 8 * (address % 4), width, instruction >> 14 & 1);
    return 1;
}

void handle(struct frame *frame)
{
    u32 core = READ_CSR(mhartid), cause = READ_CSR(mcause), pc = READ_CSR(mepc), value = READ_CSR(mtval);
    if (cause == 8)
        call(core, frame, pc);
    else if ((cause == 13 || cause == 15) && access(core, frame, pc, value))
        WRITE_CSR(mepc, pc + 4);
    else
        end_task(core, frame, TRAPPED + cause, pc, value);
}

static void map(u32 *pages, u32 address, const volatile void *memory, u32 bytes, u32 may)
{
    u32 first = (address >> 12) & 1023, frame = (u32)(uintptr_t)memory >> 12;
    root[address >> 22] = (u32)(uintptr_t)pages >> 2 | VALID;
    for (u32 page = 0; page * PAGE < bytes; page++)
        pages[first + page] = (frame + page) << 10 | may;
}

void begin(u32 core, struct frame *frame)
{
    if (!(denovo_cores & ((1u << core) - 1))) {
        map(code_pages, CODE, denovo_code, 4 * denovo_code_words, VALID | EXECUTE | USER | USED);
#ifdef NATIVE
        map(data_pages, DATA, denovo_data, 4 * denovo_words, VALID | READ | WRITE | USER | USED);
#else
        (void)data_pages;
#endif
        swap(&ready, 1);
    }
    wait_for(&ready, 1, 1);
    fence();
    WRITE_CSR(pmpaddr0, 0xffffffff);
    WRITE_CSR(pmpcfg0, 0x1f);
    WRITE_CSR(satp, (u32)(uintptr_t)root >> 12 | 1u << 31);
    __asm__ volatile("sfence.vma" : : : "memory");
    WRITE_CSR(mstatus, 0);
    go_on(core, frame);
}
