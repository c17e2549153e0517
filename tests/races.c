/* Preloaded by tests/races: tells helgrind in which order the hall lets callers at the archive. The hall's lock is a word that is waited for and
   counted up, which helgrind doesn't know as a lock; so each call of the archive is told as happening after the end of the one before it.
   Where two calls of the archive overlap, neither happens after the other, and what both touch is reported. With PLAIN, a counter is counted up
   beside that order, as a counter that threads share without a lock would be. */
#include <valgrind/helgrind.h>
#include <valgrind/valgrind.h>

typedef unsigned long word;
static char last_call;
#ifdef PLAIN
volatile word plain_counter;
#define COUNT() (plain_counter++)
#else
#define COUNT() ((void)0)
#endif

/* A wrapper of the functions of this name, in valgrind's spelling, where ZcZc is :: and Za is any end: it hands on twelve words, which are all
   that the function may have and more. */
#define IN_ORDER(name)                                                                                                                     \
    word I_WRAP_SONAME_FNNAME_ZZ(NONE, name)(word a, word b, word c, word d, word e, word f, word g, word h, word i, word j, word k, word l); \
    word I_WRAP_SONAME_FNNAME_ZZ(NONE, name)(word a, word b, word c, word d, word e, word f, word g, word h, word i, word j, word k, word l) { \
        OrigFn original;                                                                                                                   \
        word result;                                                                                                                       \
        VALGRIND_GET_ORIG_FN(original);                                                                                                    \
        COUNT();                                                                                                                           \
        ANNOTATE_HAPPENS_AFTER(&last_call);                                                                                                \
        CALL_FN_W_12W(result, original, a, b, c, d, e, f, g, h, i, j, k, l);                                                               \
        ANNOTATE_HAPPENS_BEFORE(&last_call);                                                                                               \
        return result;                                                                                                                     \
    }

IN_ORDER(archiveZcZcarchiveZcZcArchiveZcZccallZcZcZa)
