/* Sizes, for a machine without a C library. */
#ifndef PAGE_STDDEF_H
#define PAGE_STDDEF_H

#define NULL ((void *)0)
typedef __SIZE_TYPE__ size_t;

#endif
