// Plain C with all of the paper's checks.
#include "plain.h"

#define NAMED(function) plain_##function
#define JUDGING true

#include "plain/all.h"
