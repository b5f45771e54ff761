/* What the examples and the benchmark use of the C library's headers, for a compiler that comes without them. */
#ifndef STDDEF_H
#define STDDEF_H
typedef __SIZE_TYPE__ size_t;
#define NULL ((void *)0)
#endif
