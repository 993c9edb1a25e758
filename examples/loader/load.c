/* Reads a listing into what a simulator runs, and prints it, as load.py beside it does:
   cc -o load examples/loader/load.c && ./denovo --mode list < TEXT | ./load */
#include <stdio.h>
#include <stdlib.h>
#include <string.h>

static struct { char name[1024]; unsigned first; } regions[4096], locks[32];
static struct { int phase, core; unsigned entry, argument; int first_effect; } tasks[65];
static struct { int may_store, lock; unsigned low, high; } effects[65536];
static struct { char word[8]; int numbers; long long number[3]; } code[16384];
static unsigned memory[65536];
static int region_count, lock_count, phase_count, task_count, effect_count, code_count;
static unsigned word_count;

static unsigned region(const char *name) { int i = 0; while (strcmp(regions[i].name, name)) i++; return regions[i].first; }
static int lock(const char *name) { int i = 0; while (strcmp(locks[i].name, name)) i++; return i; }

static void take(char *word, char **rest)
{
    if (!strcmp(word, ".region")) {
        strcpy(regions[region_count].name, rest[0]);
        regions[region_count++].first = word_count;
        word_count += strtoul(rest[1], 0, 0);
    } else if (!strcmp(word, ".word")) {
        memory[region(rest[0]) + strtoul(rest[1], 0, 0)] = strtoul(rest[2], 0, 0);
    } else if (!strcmp(word, ".lock")) {
        strcpy(locks[lock_count++].name, rest[0]);
    } else if (!strcmp(word, ".phase")) {
        phase_count++;
    } else if (!strcmp(word, ".task")) {
        tasks[task_count].phase = phase_count - 1;
        tasks[task_count].core = atoi(rest[0]);
        tasks[task_count].entry = strtoul(rest[1], 0, 0);
        tasks[task_count].argument = strtoul(rest[2], 0, 0);
        tasks[task_count++].first_effect = effect_count;
    } else if (strstr(word, "reads") || strstr(word, "writes")) {
        effects[effect_count].may_store = strstr(word, "writes") != 0;
        effects[effect_count].lock = word[1] == 'g' ? lock(*rest++) : -1;
        effects[effect_count].low = region(rest[0]) + strtoul(rest[1], 0, 0);
        effects[effect_count++].high = region(rest[0]) + strtoul(rest[2], 0, 0);
    } else if (strcmp(word, ".version")) {
        int n = 0;
        strcpy(code[code_count].word, word);
        for (; rest[n]; n++) code[code_count].number[n] = strtoll(rest[n] + (rest[n][0] == 'x'), 0, 0);
        code[code_count++].numbers = n;
    }
}

int main(void)
{
    char line[1100], *rest[8];
    while (fgets(line, sizeof line, stdin)) {
        char *word = strtok(line, " ,()\n");
        for (int i = 0; i < 8; i++) rest[i] = strtok(0, " ,()\n");
        take(word, rest);
    }
    tasks[task_count].first_effect = effect_count;
    printf("words %u locks %d\n", word_count, lock_count);
    for (unsigned i = 0; i < word_count; i++)
        if (memory[i]) printf("word %u %u\n", i, memory[i]);
    for (int i = 0; i < task_count; i++) {
        printf("task %d %d %u %u\n", tasks[i].phase, tasks[i].core, tasks[i].entry, tasks[i].argument);
        for (int e = tasks[i].first_effect; e < tasks[i + 1].first_effect; e++)
            printf("%s %d %u %u\n", effects[e].may_store ? "stores" : "loads", effects[e].lock, effects[e].low, effects[e].high);
    }
    for (int i = 0; i < code_count; i++) {
        printf("code %s", code[i].word);
        for (int n = 0; n < code[i].numbers; n++) printf(" %lld", code[i].number[n]);
        printf("\n");
    }
    return 0;
}
