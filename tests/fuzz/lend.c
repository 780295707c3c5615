/* Memory to lend: guard pages, canaries, read-only buffers, the stack, and the faults that they bring to light. */
#define _GNU_SOURCE
#include "lend.h"

#include <signal.h>
#include <stdio.h>
#include <stdlib.h>
#include <string.h>
#include <sys/mman.h>
#include <unistd.h>

#include "random.h"

/* A guard is as large as the largest page that there is. */
enum { GUARD = 65536, CANARIES = 256, SPACES = BUFFERS + OUTS };

static const char *const space_names[SPACES] = {"the main buffer", "the second buffer", "the third buffer",
                                                "the kernel",      "the list",          "answer 0",
                                                "answer 1",        "answer 2",          "answer 3"};

/* ROOM bytes between two guard pages, and what of them is lent. */
typedef struct {
    uint8_t *base, *at;
    size_t bytes;
    int upper, sealed;
    uint8_t canary;
} Space;

static Space spaces[SPACES];
static uint8_t *stack_room;
static long page;
static uint8_t alternate[64 * 1024];
static const char *case_name = "no call yet";
static uint64_t case_seed, case_index;

void lend_case(const char *name, uint64_t seed, uint64_t index)
{
    case_name = name;
    case_seed = seed;
    case_index = index;
}

static const char *place_of(const uint8_t *touched, const char **name)
{
    if (touched >= stack_room && touched < stack_room + STACK_ROOM) return *name = "the stack", "past the end of";
    for (int i = 0; i < SPACES; i++) {
        const Space *s = &spaces[i];
        *name = space_names[i];
        if (touched >= s->base - GUARD && touched < s->base) return "before the start of";
        if (touched >= s->base + ROOM && touched < s->base + ROOM + GUARD) return "past the end of";
        if (touched >= s->base && touched < s->base + ROOM) return "by writing what is only read, in";
    }
    *name = "anything that was lent";
    return "outside";
}

/* The library calls nothing, so that a fault in it interrupts no function of C's. */
static void faulted(int signal, siginfo_t *info, void *context)
{
    const char *name, *where = place_of(info->si_addr, &name);
    (void)signal;
    (void)context;
    printf("fuzz: corbelrush_%s faulted %s %s; seed %llu case %llu\n", case_name, where, name,
           (unsigned long long)case_seed, (unsigned long long)case_index);
    fflush(stdout);
    _exit(1);
}

static uint8_t *map(size_t bytes)
{
    uint8_t *at = mmap(NULL, bytes, PROT_READ | PROT_WRITE, MAP_PRIVATE | MAP_ANONYMOUS, -1, 0);
    if (at == MAP_FAILED) perror("fuzz: mmap"), exit(2);
    return at;
}

static void protect(void *at, size_t bytes, int how)
{
    if (mprotect(at, bytes, how) != 0) perror("fuzz: mprotect"), exit(2);
}

void *lend_start(void)
{
    for (int i = 0; i < SPACES; i++) {
        uint8_t *at = map(ROOM + 2 * GUARD);
        protect(at, GUARD, PROT_NONE);
        protect(at + GUARD + ROOM, GUARD, PROT_NONE);
        spaces[i].base = at + GUARD;
    }
    page = sysconf(_SC_PAGESIZE);
    return stack_room = map(STACK_ROOM);
}

size_t lend_stack(const void *frame)
{
    stack_t stack = {.ss_sp = alternate, .ss_size = sizeof alternate};
    struct sigaction action = {.sa_sigaction = faulted, .sa_flags = SA_SIGINFO | SA_ONSTACK};
    size_t left = (size_t)((const uint8_t *)frame - stack_room), over = left % (size_t)page;
    protect(stack_room, left - over - STACK_PROMISED, PROT_NONE);
    sigaltstack(&stack, NULL);
    sigaction(SIGSEGV, &action, NULL);
    sigaction(SIGBUS, &action, NULL);
    return over;
}

/* The canaries of a space: on its open side, away from the guard page that it leans on. */
static uint8_t *canaries(const Space *s, size_t *count)
{
    size_t free = ROOM - s->bytes;
    *count = free < CANARIES ? free : CANARIES;
    return s->upper ? s->at - *count : s->at + s->bytes;
}

/* The pages that a space's lent bytes lie on, read-only or not. */
static void seal(const Space *s, int how)
{
    uint8_t *from = s->at - (uintptr_t)s->at % (uintptr_t)page;
    if (s->sealed && s->bytes > 0) protect(from, (size_t)(s->at + s->bytes - from), how);
}

static void *place(Space *s, const uint8_t *content, size_t bytes, int written)
{
    size_t count;
    seal(s, PROT_READ | PROT_WRITE);
    s->bytes = bytes;
    s->upper = bytes == 0 || below(2);
    s->at = s->upper ? s->base + ROOM - bytes : s->base;
    s->canary = (uint8_t)below(256);
    s->sealed = !written;
    uint8_t *open = canaries(s, &count);
    memset(open, s->canary, count);
    memcpy(s->at, content, bytes);
    seal(s, PROT_READ);
    return bytes == 0 && chance(2) ? NULL : s->at;
}

void lend(const Case *c, const Function *f, void *lent[BUFFERS], void *out[OUTS])
{
    uint8_t rest[8];
    for (int i = 0; i < BUFFERS; i++)
        lent[i] = f->element[i] ? place(&spaces[i], before[i].bytes, c->count[i] * f->element[i], f->written[i]) : NULL;
    for (int i = 0; i < OUTS; i++) {
        random_bytes(rest, sizeof rest);
        out[i] = f->out_size[i] ? place(&spaces[BUFFERS + i], rest, f->out_size[i], 1) : NULL;
    }
}

static const char *space_differs(const Space *s, const uint8_t *wanted, size_t *at)
{
    size_t count;
    const uint8_t *open = canaries(s, &count);
    for (*at = 0; *at < count; ++*at)
        if (open[*at] != s->canary) return "a byte outside of it was written";
    if (memcmp(s->at, wanted, s->bytes) == 0) return NULL;
    for (*at = 0; s->at[*at] == wanted[*at];) ++*at;
    return "it holds other bytes than the rules say";
}

const char *lend_differs(const Case *c, const Function *f, size_t *at)
{
    static char words[128];
    const char *why = NULL;
    int i = -1;
    while (!why && ++i < SPACES) {
        if (i < BUFFERS && f->element[i]) why = space_differs(&spaces[i], after[i].bytes, at);
        if (i >= BUFFERS && f->out_size[i - BUFFERS]) why = space_differs(&spaces[i], (const uint8_t *)&c->out[i - BUFFERS], at);
    }
    if (!why) return NULL;
    snprintf(words, sizeof words, "%s: %s", space_names[i], why);
    return words;
}
