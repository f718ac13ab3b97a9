// Rounded quotients through the C header: a line `A B D` in, a line `KIND VALUE` out.
#include <endakuro.h>
#include <stdio.h>
#include <stdlib.h>

int main(void) {
    char line[80];
    while (fgets(line, sizeof line, stdin)) {
        char *rest = line;
        uint64_t a = strtoul(rest, &rest, 10), b = strtoul(rest, &rest, 10), d = strtoul(rest, &rest, 10);
        EndakuroQuotient answer = endakuro_rounded_ratio(a, b, d);
        printf("%u %lu\n", answer.kind, answer.value);
    }
    return 0;
}
