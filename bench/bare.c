// Plain C that trusts its input.
#include "plain.h"

#define NAMED(function) bare_##function
#define JUDGING false

#include "plain/all.h"
