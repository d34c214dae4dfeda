/* What the two files of the program `pieces` share. */
#ifndef PIECES_H
#define PIECES_H

#include <stddef.h>

extern unsigned long calls, wrong;

/* Counts what is wrong and prints it, with what `describe` adds. Answers 0. */
int is_wrong(const char *what);
extern void (*describe)(void);

/* So many calls on states that a host made up. */
void forged(size_t count);

#endif
