/* As much of it as the programs use. A size in fread and fwrite is 1 or 4; the forms are %s, %u, %x and %0Nx. */
#ifndef STDIO_H
#define STDIO_H
#include <stddef.h>
typedef struct FILE FILE;
extern FILE *stdout, *stderr;
FILE *fopen(const char *path, const char *mode);
int fclose(FILE *file);
size_t fread(void *to, size_t size, size_t count, FILE *file);
size_t fwrite(const void *from, size_t size, size_t count, FILE *file);
__attribute__((format(printf, 1, 2))) int printf(const char *form, ...);
__attribute__((format(printf, 2, 3))) int fprintf(FILE *file, const char *form, ...);
#endif
