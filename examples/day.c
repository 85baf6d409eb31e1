/* Prints the day of a date: its number, its day of the sixty and its name. From the project's directory:
 * cc -Iinclude examples/day.c target/staticlib/libxinghe.a -o target/day && target/day 293997 0 1 */
#include <inttypes.h>
#include <stdio.h>
#include <stdlib.h>
#include <string.h>
#include "xinghe.h"

int main(int argc, char **argv) {
    uint64_t date[3] = {0}, day[2], name[2];
    uint8_t names[360];
    for (int i = 0; i < 3; i++) {
        /* strtoull alone would also take blanks and signs, and -1 as a large number */
        if (argc != 4 || *argv[i + 1] == '\0' ||
            argv[i + 1][strspn(argv[i + 1], "0123456789")] != '\0')
            return fprintf(stderr, "usage: day YEAR PLACE DAY, each in decimal digits\n"), 2;
        /* past 64 bits strtoull gives its largest number, which is no year, place or day either */
        date[i] = strtoull(argv[i + 1], NULL, 10);
    }
    uint64_t number = xinghe_day_of_date(date[0], date[1], date[2], day);
    if (number != XINGHE_ANSWERED)
        return fprintf(stderr, "refused %" PRIu64 ": there is no such %s\n", number,
                       number == XINGHE_YEAR    ? "year"
                       : number == XINGHE_PLACE ? "place in the year"
                                                : "day in the month"), 1;
    xinghe_ganzhi_names(names);
    /* no list of theirs: its length is 0, and its pointer any that is not null.
     * The day of an answered date and a list of 360 bytes are never refused. */
    xinghe_label(day[1], names, 0, names, sizeof names, name);
    printf("day %" PRIu64 "\nday of the sixty %" PRIu64 "\n", day[0], day[1]);
    printf("name %.6s\n", (char *)names + name[1]);
    return 0;
}
