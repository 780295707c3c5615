/*
 * The choice of `tools/native-lib OUTDIR any`: the functions of include/corbelrush.h, each of which becomes, when a program
 * or a shared library with it is loaded, the one that was compiled for the widest of x86-64, x86-64-v3 and x86-64-v4 that
 * the processor is; not that for x86-64-v4, or always that for x86-64, where a wider one takes longer for some picture, or
 * gains nothing (docs/PERFORMANCE.md). The choice is not proved: what it chooses from is the same proved bitcode, compiled
 * for each.
 *
 * The processor is asked here, and not by the compiler's own library, which the archive would then need beside it. It is
 * asked once for all functions, since in a virtual machine each question can take some 20 microseconds. What runs while a
 * program is loaded may read nothing that has yet to be filled in: so the variants are hidden, which makes their addresses
 * distances within the file.
 */
typedef unsigned word;
typedef word function(void); /* none is called from here, so none needs its own type */

#define BIT(i) (1u << (i))

enum level { NOT_ASKED, V1, V3, V4 };

struct answer {
    word a, b, c, d;
};

static struct answer ask(word leaf)
{
    struct answer it;
    __asm__("cpuid" : "=a"(it.a), "=b"(it.b), "=c"(it.c), "=d"(it.d) : "a"(leaf), "c"(0));
    return it;
}

/* Which registers the system keeps for each thread. */
static word kept(void)
{
    word low, high;
    __asm__("xgetbv" : "=a"(low), "=d"(high) : "c"(0));
    return low;
}

static int has(word all, word wanted) { return (all & wanted) == wanted; }

/* The levels of the System V ABI for x86-64. */
static enum level level_of(void)
{
    const word sse = BIT(0) | BIT(9) | BIT(13) | BIT(19) | BIT(20) | BIT(23); /* SSE3 to SSE4.2, CMPXCHG16B, POPCNT */
    const word avx = BIT(12) | BIT(22) | BIT(27) | BIT(28) | BIT(29);        /* FMA, MOVBE, OSXSAVE, AVX, F16C */
    const word avx2 = BIT(3) | BIT(5) | BIT(8);                              /* BMI1, AVX2, BMI2 */
    const word avx512 = BIT(16) | BIT(17) | BIT(28) | BIT(30) | BIT(31);     /* F, DQ, CD, BW, VL */
    const word more = BIT(0) | BIT(5);                                       /* LAHF, LZCNT */
    const word halves = BIT(1) | BIT(2), wholes = halves | BIT(5) | BIT(6) | BIT(7);
    word wide;
    if (ask(0).a < 7 || !has(ask(1).c, sse | avx) || !has(ask(0x80000001u).c, more) || !has(kept(), halves)) return V1;
    wide = ask(7).b;
    if (!has(wide, avx2)) return V1;
    return has(wide, avx512) && has(kept(), wholes) ? V4 : V3;
}

static function *chosen(function *plain, function *v3, function *v4)
{
    static enum level level;
    if (level == NOT_ASKED) level = level_of();
    return level == V4 ? v4 : level == V3 ? v3 : plain;
}

#define HIDDEN __attribute__((visibility("hidden")))
#define BECOMES(name, which)                                                                                             \
    extern HIDDEN function x86_64_##name, x86_64_v3_##name, x86_64_v4_##name;                                            \
    static function *choice_of_##name(void) { return which; }                                                            \
    function name __attribute__((ifunc("choice_of_" #name)));
#define WIDEST(name) BECOMES(name, chosen(x86_64_##name, x86_64_v3_##name, x86_64_v4_##name))
#define TO_V3(name) BECOMES(name, chosen(x86_64_##name, x86_64_v3_##name, x86_64_v3_##name))
#define PLAIN(name) BECOMES(name, x86_64_##name)

WIDEST(corbelrush_blur)
WIDEST(corbelrush_blur_planes)
WIDEST(corbelrush_blur_whole)
WIDEST(corbelrush_mend)
WIDEST(corbelrush_pam_read)
WIDEST(corbelrush_pam_write)
WIDEST(corbelrush_plate_job)
WIDEST(corbelrush_rebuild)
WIDEST(corbelrush_sample)

TO_V3(corbelrush_from_planes)
TO_V3(corbelrush_recipes)
TO_V3(corbelrush_shadow)
TO_V3(corbelrush_shadow_planes)
TO_V3(corbelrush_to_planes)

PLAIN(corbelrush_area_box)
PLAIN(corbelrush_area_build)
PLAIN(corbelrush_area_update)
PLAIN(corbelrush_check)
PLAIN(corbelrush_plate_add)
PLAIN(corbelrush_plate_label)
PLAIN(corbelrush_plate_picture)
PLAIN(corbelrush_plate_start)
PLAIN(corbelrush_share)
PLAIN(corbelrush_shares)
PLAIN(corbelrush_shift)
PLAIN(corbelrush_shift_planes)
PLAIN(corbelrush_spread)
PLAIN(corbelrush_view)
