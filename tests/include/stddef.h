/* Of C's headers the tests and the example need four, and the kit has none: these declare what is used. */
#ifndef STDDEF_H
#define STDDEF_H

typedef __SIZE_TYPE__ size_t;

#define NULL ((void *)0)

#endif
