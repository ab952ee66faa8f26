/* The kit's clang has no C headers. This is what include/rei2.h, the C test and the example need of stddef.h. */
#ifndef STD_STDDEF_H
#define STD_STDDEF_H
typedef __SIZE_TYPE__ size_t;
#define NULL ((void *)0)
#define offsetof(type, field) __builtin_offsetof(type, field)
#endif
