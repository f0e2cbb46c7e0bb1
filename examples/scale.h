#ifndef SCALE_H
#define SCALE_H

/* Kinds of units, and a number of steps that no int holds. */
#define METER 'm'
#define FAR 2147483648

int scale(int);
int scale(char);
long scale(long, int);

#endif
