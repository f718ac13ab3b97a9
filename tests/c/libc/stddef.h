#pragma once

typedef __SIZE_TYPE__ size_t;

#ifdef __cplusplus
#define NULL nullptr
#else
#define NULL ((void *)0)
#endif

#define offsetof(type, field) __builtin_offsetof(type, field)
