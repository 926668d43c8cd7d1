/* The few functions of the C library that the host programs use. They are declared here, and not included, because the programs are
 * compiled for x86-64 on any machine, which may have no C library headers for x86-64. */
#ifndef PLAIN_C_H
#define PLAIN_C_H

#include <stddef.h>

typedef struct file FILE;
extern FILE *stdin, *stdout, *stderr;
int fgetc(FILE *from);
int fputs(const char *text, FILE *to);
int fputc(int c, FILE *to);
int printf(const char *format, ...);
int fprintf(FILE *to, const char *format, ...);
int fflush(FILE *f);
FILE *fopen(const char *path, const char *mode);
int fclose(FILE *f);
size_t fread(void *to, size_t size, size_t count, FILE *from);
size_t fwrite(const void *from, size_t size, size_t count, FILE *to);
int ferror(FILE *f);
enum { SEEK_SET, SEEK_CUR, SEEK_END };
int fseek(FILE *f, long offset, int from);
long ftell(FILE *f);
void *memcpy(void *to, const void *from, size_t n);
void *memset(void *to, int c, size_t n);
int memcmp(const void *a, const void *b, size_t n);
size_t strlen(const char *s);
int strcmp(const char *a, const char *b);
char *strchr(const char *s, int c);
unsigned long long strtoull(const char *s, char **end, int base);
int snprintf(char *to, size_t size, const char *format, ...);
int chdir(const char *path);
int access(const char *path, int mode); /* mode 0: whether it is there */

#endif
