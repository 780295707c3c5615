/*
 * fuzz [SEED [CASES [FIRST]]]: random calls of every function, each compared with the rules of docs/RULES.md written plainly
 * (fuzz/rules*.c): the number, every answered number, every lent byte. What is lent leans on a guard page, what is only read
 * is mapped so, and the calls run on a stack that ends where include/corbelrush.h says (fuzz/lend.c). A case depends on the
 * seed and its number alone: `fuzz SEED 1 NUMBER` runs it again.
 */
#define _POSIX_C_SOURCE 200809L
#include <pthread.h>
#include <stdio.h>
#include <stdlib.h>
#include <string.h>

#include "fuzz/case.h"
#include "fuzz/lend.h"
#include "fuzz/random.h"

Content before[BUFFERS], after[BUFFERS];

#ifdef PLANT_IN
/* A planted fault of one function: a bit of the last buffer that it wrote, else of the last number that it answered, else of
 * the number that it returned. */
static uint32_t planted_bit(uint32_t number, const Function *f, const Case *c, void *const lent[BUFFERS], void *const out[OUTS])
{
    uint8_t *last = NULL;
    for (int i = 0; i < OUTS; i++)
        if (f->out_size[i]) last = out[i];
    for (int i = 0; i < BUFFERS; i++)
        if (f->written[i] && c->count[i] > 0) last = (uint8_t *)lent[i] + c->count[i] * f->element[i] - 1;
    if (last) *last ^= 1;
    return last ? number : number ^ 1;
}
#endif

/* A run of so many cases must have seen every number that every function can return. */
enum { LONG_RUN = 20000 };

static uint64_t seed = 1, cases = LONG_RUN, first;
static uint64_t done, refused;
static uint32_t answered[FUNCTIONS_MOST];

static void wrong(const Function *f, const Case *c, uint64_t index, const char *what)
{
    printf("fuzz: corbelrush_%s: %s; w %u h %u n %u edge %u lengths %zu %zu %zu %zu %zu; seed %llu case %llu\n", f->name, what,
           (unsigned)c->w, (unsigned)c->h, (unsigned)c->n, (unsigned)c->edge, c->count[MAIN], c->count[SECOND], c->count[THIRD],
           c->count[KERNEL], c->count[LIST], (unsigned long long)seed, (unsigned long long)index);
    exit(1);
}

static void run_case(uint64_t index)
{
    static Case c;
    void *lent[BUFFERS], *out[OUTS];
    char words[160];
    size_t at = 0;
    random_start(seed, index);
    unsigned which = below(function_count);
    const Function *f = &functions[which];
    memset(&c, 0, sizeof c);
    f->draw(&c);
    for (int i = 0; i < BUFFERS; i++) memcpy(after[i].bytes, before[i].bytes, c.count[i] * f->element[i]);
    lend(&c, f, lent, out);
    lend_case(f->name, seed, index);
    uint32_t found = f->call(&c, lent, out), wanted = f->rule(&c);
#ifdef PLANT_IN
    if (which == PLANT_IN && (found == 0 || f->answers == 1)) found = planted_bit(found, f, &c, lent, out);
#endif
    if (found != wanted) {
        snprintf(words, sizeof words, "answered %u, and the rules say %u", (unsigned)found, (unsigned)wanted);
        wrong(f, &c, index, words);
    }
    const char *differs = lend_differs(&c, f, &at);
    if (differs) {
        snprintf(words, sizeof words, "%s, at byte %zu; answered %u", differs, at, (unsigned)found);
        wrong(f, &c, index, words);
    }
    int pixel = f->answers == 1; /* a sample answers no refusal */
    answered[which] |= pixel ? 1u : 1u << wanted;
    *(wanted && !pixel ? &refused : &done) += 1;
}

/* Every number that a function can return must have come up, or the cases do not try what they should. */
static int all_answered(void)
{
    int all = 1;
    for (unsigned i = 0; i < function_count; i++)
        for (unsigned number = 0; number < 32; number++)
            if ((functions[i].answers & ~answered[i]) >> number & 1) {
                printf("fuzz: corbelrush_%s never answered %u\n", functions[i].name, number);
                all = 0;
            }
    return all;
}

static void *run(void *unused)
{
    uint8_t here = 0;
    volatile uint8_t taken[lend_stack(&here) + 1];
    taken[0] = 0;
    for (uint64_t i = taken[0]; i < cases; i++) run_case(first + i);
    return unused;
}

int main(int count, char **words)
{
    pthread_attr_t attributes;
    pthread_t thread;
    if (count > 1) seed = strtoull(words[1], NULL, 10);
    if (count > 2) cases = strtoull(words[2], NULL, 10);
    if (count > 3) first = strtoull(words[3], NULL, 10);
    pthread_attr_init(&attributes);
    pthread_attr_setstack(&attributes, lend_start(), STACK_ROOM);
    if (pthread_create(&thread, &attributes, run, NULL) != 0 || pthread_join(thread, NULL) != 0) return 2;
    if (cases >= LONG_RUN && !all_answered()) return 1;
    printf("fuzz: %llu cases of %u functions from seed %llu agree with the rules: %llu done, %llu refused\n",
           (unsigned long long)cases, function_count, (unsigned long long)seed, (unsigned long long)done,
           (unsigned long long)refused);
    return 0;
}
