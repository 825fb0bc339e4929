/* The part of C's stdio.h that is used here: the kit has a compiler and no headers. With any other compiler its own headers serve. */
#ifndef KIT_STDIO_H
#define KIT_STDIO_H

#include <stddef.h>

typedef struct kit_file FILE;
extern FILE *stdin;
extern FILE *stderr;
FILE *fopen(const char *path, const char *mode);
size_t fread(void *to, size_t size, size_t count, FILE *from);
int ferror(FILE *from);
int printf(const char *format, ...);
int fprintf(FILE *to, const char *format, ...);

#endif
