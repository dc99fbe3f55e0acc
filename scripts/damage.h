/* Damages inputs; scripts/hostile.c runs the program on them. */
#ifndef DAMAGE_H
#define DAMAGE_H

#include <stddef.h>
#include <stdint.h>

struct bytes {
    unsigned char *at;
    size_t size;
};

/* The most bytes that an input gets. */
enum { MOST = 16384 };

/* Sets the random numbers that follow. */
void seed(uint64_t number);

/* A random number from 0 on, below a bound. */
uint64_t draw(uint64_t below);

/* Damages a text, which has room for MOST bytes, in one way. Some ways take a part of another text. */
void damage(struct bytes *text, struct bytes other);

#endif
