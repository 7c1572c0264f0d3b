#ifndef STDIO_H
#define STDIO_H

#include <stddef.h>

#ifdef __cplusplus
extern "C" {
#endif

typedef struct _IO_FILE FILE;
extern FILE *stdin, *stdout, *stderr;

int printf(const char *, ...) __attribute__((format(printf, 1, 2)));
int fprintf(FILE *, const char *, ...) __attribute__((format(printf, 2, 3)));
int puts(const char *);
int putchar(int);
int getchar(void);
int fflush(FILE *);
size_t fread(void *, size_t, size_t, FILE *);
size_t fwrite(const void *, size_t, size_t, FILE *);

#define EOF (-1)

#ifdef __cplusplus
}
#endif

#endif
