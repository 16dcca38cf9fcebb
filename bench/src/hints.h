/* What the compiler is told about a choice. */

#ifndef HINTS_H
#define HINTS_H

#define LIKELY(c) __builtin_expect(!!(c), 1)
#define UNLIKELY(c) __builtin_expect(!!(c), 0)

/* The compiler takes x for unknown from here on: it makes no branch of the choice that led to x or
 * follows from it. */
#define HIDE(x) __asm__("" : "+r"(x))

#endif
