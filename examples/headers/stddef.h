/* The part of C's stddef.h that is used here: the kit has a compiler and no headers. With any other compiler its own headers serve. */
#ifndef KIT_STDDEF_H
#define KIT_STDDEF_H

typedef __SIZE_TYPE__ size_t;
#ifdef __cplusplus
#define NULL 0
#else
#define NULL ((void *)0)
#endif

#endif
