#ifndef STDIO_H
#define STDIO_H
#include <stddef.h>
typedef struct file FILE;
#define stdout ((FILE *)1)
#define stderr ((FILE *)2)
int printf(const char *format, ...);
int fprintf(FILE *file, const char *format, ...);
int puts(const char *line);
FILE *fopen(const char *path, const char *mode);
size_t fread(void *to, size_t size, size_t count, FILE *file);
int ferror(FILE *file);
int fclose(FILE *file);
#endif
