/* Random numbers that are the same on every machine (GB_FLIP). */
#ifndef SGB_GRAPHBASE_GB_FLIP_H
#define SGB_GRAPHBASE_GB_FLIP_H

#ifdef __cplusplus
extern "C" {
#endif

/* The next number, from 0 to 2^31 - 1. */
#define gb_next_rand() (*gb_fptr >= 0 ? *gb_fptr-- : gb_flip_cycle())

extern long *gb_fptr;
/* Makes the numbers that come next, and hands the first of them out. */
extern long gb_flip_cycle(void);
/* Begins anew from a start value. */
extern void gb_init_rand(long seed);
/* A number from 0 to m - 1, each as likely as the others; m is from 1 to 2^31. */
extern long gb_unif_rand(long m);

#ifdef __cplusplus
}
#endif

#endif
