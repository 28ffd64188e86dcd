#pragma once
#include <stddef.h>
#define EOF (-1)
typedef struct file FILE;
extern FILE *stdout, *stderr;
int printf(const char *, ...);
int fprintf(FILE *, const char *, ...);
int snprintf(char *, size_t, const char *, ...);
int putchar(int);
int fflush(FILE *);
FILE *fopen(const char *, const char *);
size_t fread(void *, size_t, size_t, FILE *);
int fgetc(FILE *);
int ferror(FILE *);
int fclose(FILE *);
