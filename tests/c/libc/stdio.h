#pragma once
#include <stddef.h>

typedef struct FILE FILE;

extern FILE *stdin, *stdout, *stderr;

int printf(const char *, ...) __attribute__((format(printf, 1, 2)));
int fprintf(FILE *, const char *, ...) __attribute__((format(printf, 2, 3)));
int putchar(int);
char *fgets(char *, int, FILE *);
int fflush(FILE *);
