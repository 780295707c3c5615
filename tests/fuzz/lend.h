/*
 * Memory to lend: each buffer of a case against the guard page above it or the one below, canaries on its open side, and
 * what is only read mapped so. A call that touches anything else ends the program, with the case and the place named.
 */
#ifndef FUZZ_LEND_H
#define FUZZ_LEND_H

#include "case.h"

/* A thread's stack, and how much of it a call may use by include/corbelrush.h. */
enum { STACK_ROOM = 1 << 20, STACK_PROMISED = 256 * 1024 };

/* Maps the memory; answers that of the thread's stack. */
void *lend_start(void);

/* In the thread: ends its stack STACK_PROMISED bytes below the next page down from this frame, and catches faults. Answers how
 * far that page is: the caller takes so much of the stack before the first call. */
size_t lend_stack(const void *frame);

/* What a fault is reported with. */
void lend_case(const char *name, uint64_t seed, uint64_t index);

/* Places what the case lends, and room for what it answers. */
void lend(const Case *c, const Function *f, void *lent[BUFFERS], void *out[OUTS]);

/* What is not as the rules say, and at which byte; NULL where all is. */
const char *lend_differs(const Case *c, const Function *f, size_t *at);

#endif
