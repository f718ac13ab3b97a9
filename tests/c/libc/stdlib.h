#pragma once
#include <stddef.h>

unsigned long strtoul(const char *, char **, int);
long strtol(const char *, char **, int);
