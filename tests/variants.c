/*
 * The choice of the archive that `tools/native-lib OUTDIR any` writes: each function of the header is that of one variant,
 * the one that tools/choose.c says, on a processor as the compiler's own library sees it. Compiled with -fPIC, or the address
 * of a function that is chosen is that of a jump to it.
 */
#include <stddef.h>
#include <stdint.h>
#include <stdio.h>

typedef uint32_t function(void); /* none is called */
enum { V1, V3, V4, LEVELS };

#define OF(name, limit) extern function name, x86_64_##name, x86_64_v3_##name, x86_64_v4_##name;
#define WIDEST(name) OF(name, V4)
#define TO_V3(name) OF(name, V3)
#define PLAIN(name) OF(name, V1)
#include CHOICES
#undef OF

static const struct {
    const char *name;
    int limit;
    function *is, *may_be[LEVELS];
} functions[] = {
#define OF(name, limit) {#name, limit, name, {x86_64_##name, x86_64_v3_##name, x86_64_v4_##name}},
#include CHOICES
};
static const char *const names[LEVELS] = {"x86-64", "x86-64-v3", "x86-64-v4"};

int main(void)
{
    int level = V1, count[LEVELS] = {0}, failed = 0;
    __builtin_cpu_init();
    if (__builtin_cpu_supports("x86-64-v3")) level = V3;
    if (__builtin_cpu_supports("x86-64-v4")) level = V4;
    for (size_t i = 0; i < sizeof functions / sizeof *functions; i++) {
        int should = functions[i].limit < level ? functions[i].limit : level;
        count[should]++;
        if (functions[i].is != functions[i].may_be[should]) {
            printf("%s is not that of %s\n", functions[i].name, names[should]);
            failed = 1;
        }
    }
    printf("%s:", names[level]);
    for (int i = level; i >= 0; i--) printf(" %d functions of %s%s", count[i], names[i], i ? "," : "\n");
    return failed;
}
