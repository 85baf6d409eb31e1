/* Prints the head of a year. From the project's directory:
 * cc -Iinclude examples/head.c target/staticlib/libxinghe.a -o target/head && target/head 293997 */
#include <inttypes.h>
#include <stdio.h>
#include <stdlib.h>
#include <string.h>
#include "xinghe.h"

int main(int argc, char **argv) {
    static const char *const names[6] = {"months before", "leap remainder", "months",
                                         "leap place", "solstice day", "solstice remainder"};
    uint64_t head[6];
    /* strtoull alone would also take blanks and signs, and -1 as a large number */
    if (argc != 2 || *argv[1] == '\0' || argv[1][strspn(argv[1], "0123456789")] != '\0')
        return fprintf(stderr, "usage: head YEAR, in decimal digits\n"), 2;
    /* past 64 bits strtoull gives its largest number, which is no year either */
    uint64_t number = xinghe_year_head(strtoull(argv[1], NULL, 10), head);
    if (number != XINGHE_ANSWERED)
        return fprintf(stderr, "refused %" PRIu64 ": the years are 1 to 1011600\n", number), 1;
    for (int i = 0; i < 6; i++) printf("%s %" PRIu64 "\n", names[i], head[i]);
    return 0;
}
