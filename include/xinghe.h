/* The Xinghe calendar of the Wei shu; after its functions those of the Zhengguang
 * and the Linde calendar.
 *
 * Every function takes any numbers whatever. It returns 0 where it answers and
 * writes its values to the arrays that the caller lends. Where it refuses it
 * returns one of the numbers below and writes zeros; xinghe_fill_year writes
 * nothing then, and xinghe_write_volume and xinghe_mend nothing to the buffer,
 * volume or list that they work on. The lowest number that applies is returned;
 * only xinghe_marked asks for 11 before 2.
 *
 * number returned     given exactly when
 *   0                 answered
 *   1                 the year is outside 1 to 1,011,600
 *   2                 the place is not below the year's month count, or the
 *                     first year of a span is after the last, or a year of it
 *                     is not in the volume
 *   3                 the day of the month is 0 or past the month's length, or
 *                     the day of the sixty is outside 1 to 60
 *   4                 a handed-in row differs in any field from the month of
 *                     the round that it names, or names none
 *   5                 a carry would end outside the round
 *   6                 the lent list or buffer is too short: for the year's
 *                     rows, or for the volume
 *   7                 the day number is above 369,481,019
 *   8                 the cut is not 24, 60 or 72, or the point not below it
 *   9                 the planet is outside 1 to 5
 *  10                 neither list of day names is 360 bytes
 *  11                 the volume is empty or no whole number of blocks; for
 *                     xinghe_mend, also if it has more than 1,024 of them
 *  12                 a block of the volume has a wrong check or is not what
 *                     the writer gives for its place and the first block's year;
 *                     for xinghe_marked, a block that it looks at has a wrong
 *                     check, or a total of the later one is below that of the
 *                     earlier
 *  13                 the first year of a volume to be mended is not known: no
 *                     block is sound, sound ones imply different first years,
 *                     or the implied run leaves the round
 *
 * Years are written from 1. A place is a month's index in its year, from 0;
 * place 0 is the eleventh month. Days are counted from the origin, from 0; day 0
 * is jiazi, day 1 of the sixty. Months of the round (lunations) are counted from
 * 0. A remainder of a day or a degree is over 208,530; that of a solstice, of a
 * cut's point and of the planets over 16,860. The planets are 1 Jupiter,
 * 2 Mars, 3 Saturn, 4 Venus, 5 Mercury.
 *
 * What the caller sees to: a pointer is not null and is aligned, also where the
 * length beside it is 0; it points to as many numbers or bytes as its parameter
 * or the length beside it says; and an array that is written overlaps no other
 * argument.
 *
 * x86-64 Linux; link libxinghe.a, which `tools/build xinghe` makes. */
#ifndef XINGHE_H
#define XINGHE_H

#include <stddef.h>
#include <stdint.h>

#ifdef __cplusplus
extern "C" {
#endif

/* The numbers returned. */
enum {
    XINGHE_ANSWERED = 0,
    XINGHE_YEAR = 1,
    XINGHE_PLACE = 2,
    XINGHE_SPAN = 2,
    XINGHE_DAY_OF_MONTH = 3,
    XINGHE_DAY_OF_SIXTY = 3,
    XINGHE_ROW = 4,
    XINGHE_CARRY = 5,
    XINGHE_LIST = 6,
    XINGHE_DAY = 7,
    XINGHE_CUT = 8,
    XINGHE_PLANET = 9,
    XINGHE_NAMES = 10,
    XINGHE_VOLUME = 11,
    XINGHE_BLOCK = 12,
    XINGHE_FIRST_YEAR = 13
};

/* How many numbers the row of a month has. */
enum { XINGHE_ROW_NUMBERS = 13 };

/* How many bytes the block of a year has in a volume. */
enum { XINGHE_BLOCK_BYTES = 512 };

/* How many blocks a volume to be mended has at the most. */
enum { XINGHE_MOST_BLOCKS = 1024 };

/* A year's head. Refused: 1.
 * out[0]  months of the round before the year: those before the month whose
 *         days contain the day of its winter solstice
 * out[1]  leap remainder of the chapter, over 562; it does not tell the count
 * out[2]  month count, 12 or 13
 * out[3]  place of the leap month, in whose days no middle term falls; 0 where
 *         there is none
 * out[4]  day of the winter solstice
 * out[5]  its remainder, over 16,860 */
uint64_t xinghe_year_head(uint64_t year, uint64_t out[6]);

/* The row of the month at a place of a year. Refused: 1, 2.
 * out[0]   month of the round
 * out[1]   year
 * out[2]   place
 * out[3]   month number, 1 to 12; a leap month has that of the month before it
 * out[4]   1 for the leap month, else 0
 * out[5]   first day
 * out[6]   small remainder of the new moon, over 208,530
 * out[7]   length, 29 or 30 days
 * the new moon's node and anomaly, as xinghe_nodes and xinghe_corrections have
 * them
 * out[8]   degrees since the last node
 * out[9]   their remainder, over 208,530
 * out[10]  side of the road: 0 at the node, 1 outside, 2 inside
 * out[11]  day of the anomaly, 1 to 28
 * out[12]  its rest, over 208,530 */
uint64_t xinghe_month_row(uint64_t year, uint64_t place,
                          uint64_t out[XINGHE_ROW_NUMBERS]);

/* The day of a date; days of a month are counted from 1. Refused: 1, 2, 3.
 * out[0]  day number
 * out[1]  day of the sixty, 1 to 60; jiazi is 1 */
uint64_t xinghe_day_of_date(uint64_t year, uint64_t place, uint64_t day,
                            uint64_t out[2]);

/* The date of a day. Refused: 7.
 * out[0]  year
 * out[1]  place
 * out[2]  day of the month, from 1 */
uint64_t xinghe_date_of_day(uint64_t number, uint64_t out[3]);

/* The row so many months on, or back where the count is negative. The row is
 * handed in as xinghe_month_row writes it. Refused: 4, 5.
 * out     the row reached, as xinghe_month_row writes it */
uint64_t xinghe_carry(const uint64_t row[XINGHE_ROW_NUMBERS], int64_t count,
                      uint64_t out[XINGHE_ROW_NUMBERS]);

/* A row carried by each of the counts in turn; a count that would lead outside
 * the round is passed over. Refused: 4.
 * counts     the counts, of which there are `length`
 * out        the last row, as xinghe_month_row writes it
 * totals[0]  1 where the sum of the answered counts is below 0, else 0
 * totals[1]  the size of that sum
 * totals[2]  how many counts were answered */
uint64_t xinghe_walk(const uint64_t row[XINGHE_ROW_NUMBERS],
                     const int64_t *counts, size_t length,
                     uint64_t out[XINGHE_ROW_NUMBERS], uint64_t totals[3]);

/* The rows of a whole year, at the front of a lent list of `length` numbers:
 * thirteen numbers for each month, by place, as xinghe_month_row writes them.
 * The numbers past the rows stay as they were; refused, all of them do. 169
 * numbers are enough for any year. Refused: 1, 6 (fewer than thirteen for each
 * month). */
uint64_t xinghe_fill_year(uint64_t year, uint64_t *out, size_t length);

/* The four phases of a month. Refused: 1, 2.
 * out[0] to out[2]   new moon: day, remainder over 208,530, quarters of a part
 * out[3] to out[5]   first quarter: the same
 * out[6] to out[8]   full moon: the same
 * out[9] to out[11]  last quarter: the same */
uint64_t xinghe_phases(uint64_t year, uint64_t place, uint64_t out[12]);

/* The moon's nodes and eclipses of a month. Refused: 1, 2. Where no eclipse is
 * marked its distance and size are 0.
 * new moon
 * out[0]   degrees since the last node
 * out[1]   their remainder, over 208,530
 * out[2]   side of the road: 0 at the node, 1 outside, 2 inside
 * out[3]   1 where an eclipse is marked, else 0
 * out[4]   degrees of the eclipse from the node
 * out[5]   their remainder, over 208,530
 * out[6]   size of the eclipse, 1 to 15
 * full moon
 * out[7]   degrees since the last node
 * out[8]   their remainder, over 208,530
 * out[9]   and half a part more: 0 or 1
 * out[10]  1 where an eclipse is marked, else 0
 * out[11]  degrees of the eclipse from the node
 * out[12]  their remainder, over 208,530
 * out[13]  and half a part more: 0 or 1
 * out[14]  size of the eclipse, 1 to 15 */
uint64_t xinghe_nodes(uint64_t year, uint64_t place, uint64_t out[15]);

/* The moon's corrections of a month. Refused: 1, 2. A correction above 0 is
 * taken from the phase's remainder, one below 0 is added.
 * new moon
 * out[0]   day of the anomaly, 1 to 28
 * out[1]   its rest, over 208,530
 * out[2]   1 where the correction is below 0, else 0
 * out[3]   size of the correction
 * out[4]   corrected day
 * out[5]   corrected remainder, over 208,530
 * full moon
 * out[6]   day of the anomaly, 1 to 28
 * out[7]   its rest, over 208,530
 * out[8]   and half a part more: 0 or 1
 * out[9]   1 where the correction is below 0, else 0
 * out[10]  size of the correction
 * out[11]  corrected day
 * out[12]  corrected remainder, over 208,530
 * out[13]  and half a part more: 0 or 1 */
uint64_t xinghe_corrections(uint64_t year, uint64_t place, uint64_t out[14]);

/* A point of a cut of the year: 24 terms, 72 pentads or 60 hexagram days, from
 * the winter solstice at index 0. Refused: 1, 8.
 * out[0]  day
 * out[1]  remainder, over 16,860
 * out[2]  rest of a part, over the cut */
uint64_t xinghe_cut_point(uint64_t year, uint64_t cut, uint64_t index,
                          uint64_t out[3]);

/* A planet's next conjunction after the solstice of a year, and the one after
 * it. Refused: 1, 9. Both may lie years on, or past the round.
 * the next conjunction
 * out[0]  days from the year's solstice
 * out[1]  their remainder, over 16,860
 * out[2]  day
 * out[3]  its remainder, over 16,860
 * out[4]  1 a morning conjunction, 2 an evening one; 0 for planets 1 to 3
 * the one after it
 * out[5] to out[9]  the same, out[5] and out[6] from the same solstice */
uint64_t xinghe_conjunctions(uint64_t year, uint64_t planet, uint64_t out[10]);

/* The stages of a planet from one conjunction to the next, as they are printed.
 * Refused: 9.
 * count[0]   how many stages there are, 7 to 14
 * out[i]     stage i, from 0; all zeros where there are no more
 * out[i][0]  days
 * out[i][1]  their remainder, over 16,860
 * out[i][2]  1 where the planet goes back, so that the degrees are below 0, else 0
 * out[i][3]  size of the degrees
 * out[i][4]  their remainder, over 16,860
 * out[i][5]  daily motion: whole degrees
 * out[i][6]  and a fraction of one: its numerator
 * out[i][7]  and denominator; all three are 0 where no motion is printed
 * out[i][8]  1 hidden, 2 direct, 3 station, 4 retrograde; 0 no stage
 * out[i][9]  what is printed: 1 morning, 2 evening, 0 neither */
uint64_t xinghe_stages(uint64_t planet, uint64_t count[1],
                       uint64_t out[14][10]);

/* Where the name of a day of the sixty is found: in theirs if that list is
 * exactly 360 bytes, sixty names of six bytes each, in the house's otherwise.
 * The names themselves are not looked at, and both lists stay as they are.
 * Refused: 3, 10 (neither list is 360 bytes).
 * out[0]  1 the name is in theirs, 2 it is in the house's
 * out[1]  the byte of that list at which its six bytes begin, from 0 */
uint64_t xinghe_label(uint64_t day, const uint8_t *theirs, size_t theirs_length,
                      const uint8_t *house, size_t house_length,
                      uint64_t out[2]);

/* A list for those who have none: the sixty stem and branch names in UTF-8,
 * from jiazi on. It is never refused and returns 0. */
uint64_t xinghe_ganzhi_names(uint8_t out[360]);

/* Almanac volumes. A volume is a run of consecutive years, one block of 512
 * bytes for each; docs/volume.md takes one apart. Numbers are unsigned and
 * little-endian.
 *
 * byte  length  what
 *    0       4  year
 *    4       1  month count, 12 or 13
 *    5       1  place of the leap month, 0 where there is none
 *    6       2  zeros
 *    8     208  thirteen records of 16 bytes, by place; in a year of twelve
 *               months the last is all zeros
 *  216       4  leap months since the volume's first year, this one included
 *  220       4  new moons at which an eclipse is marked, counted likewise
 *  224       4  full moons at which one is marked, counted likewise
 *  228     282  zeros
 *  510       2  check: the sum of i + 1 times byte i, for i from 0 to 509,
 *               modulo 65,521
 *
 * of a record
 *    0       4  month of the round
 *    4       4  first day
 *    8       4  small remainder of the new moon, over 208,530
 *   12       1  length, 29 or 30 days
 *   13       1  month number, 1 to 12
 *   14       1  1 for the leap month, else 0
 *   15       1  zero */

/* Writes the volume of the years from the first to the last to the front of a
 * lent buffer of `length` bytes. The bytes past the volume stay as they were;
 * refused, all of them do. Refused: 1 (either year), 2 (the first year is after
 * the last), 6 (fewer than 512 bytes a year).
 * written[0]  how many bytes the volume has: 512 for each year */
uint64_t xinghe_write_volume(uint64_t first, uint64_t last, uint8_t *out,
                             size_t length, uint64_t written[1]);

/* The years of a volume of `length` bytes, which stays as it is. It is answered
 * exactly where the volume is, byte for byte, what xinghe_write_volume writes
 * for these years; any one altered byte is refused under 12. Refused: 11, 12
 * (also where the first block's year is 0, or the run leaves the round).
 * years[0]  first year
 * years[1]  last year */
uint64_t xinghe_read_volume(const uint8_t *volume, size_t length,
                            uint64_t years[2]);

/* The marked new moons and the marked full moons of the years from `from` to
 * `to` of a volume, both included. The volume's first year is the number in its
 * first four bytes, and each block is one year more. Answered are the totals in
 * the block of year `to` less those in the block before that of year `from`;
 * where `from` is the first year, the totals in the block of year `to` alone.
 * Besides these one or two blocks, the first four bytes and the length nothing of
 * the volume is looked at. For a volume that xinghe_read_volume answers it is the
 * count of every month. Refused: 11, then 2 (a year is not in the volume, or
 * `from` is after `to`), then 12 (either block has a wrong check, or one of the
 * later block's three totals, leap months included, is below the earlier's).
 * moons[0]  marked new moons
 * moons[1]  marked full moons */
uint64_t xinghe_marked(const uint8_t *volume, size_t length, uint64_t from,
                       uint64_t to, uint64_t moons[2]);

/* Mends a scratched volume of `length` bytes where it is. A block is sound if its
 * check is right and its year is 1 to 1,011,600, whatever else it holds; the
 * volume's first year is the year of any sound block less its index. Each block
 * that is not, byte for byte, what xinghe_write_volume writes at its place in the
 * volume from that year on is written afresh, a sound one too. The mended volume
 * is one that xinghe_read_volume answers. Refused: 11 (also more than 1,024
 * blocks), 13 (no block is sound, sound ones imply different first years, or the
 * run leaves the round); then the volume and the list stay as they were.
 * damaged   the indices from 0, ascending, of the blocks that were written
 *           afresh, at its front; the rest of it stays as it was
 * count[0]  how many they are */
uint64_t xinghe_mend(uint8_t *volume, size_t length,
                     uint64_t damaged[XINGHE_MOST_BLOCKS], uint64_t count[1]);

/* Two further calendars beside the Xinghe. The numbers returned are those
 * above, each given by the calendar's own years, months and days; where a
 * function refuses it writes zeros. Places, days and days of the sixty are
 * counted as in the Xinghe, and a calendar's months from 0 at its origin. They
 * end before the month whose days contain the winter solstice of the year after
 * the last.
 *
 *                     Zhengguang            Linde
 * years, as written   1 to 363,600          0 to 300,000
 * months              0 to 4,497,119        0 to 3,710,516
 * days                0 to 132,802,619      0 to 109,573,781
 * remainders of
 *   new moons         over 74,952           over 1,340
 *   solstices, cuts   over 6,060            over 1,340
 * number returned
 *   1                 year                  year
 *   2                 place                 place
 *   3                 day of the month      day of the month
 *   4                 row                   row
 *   5                 carry                 carry
 *   7                 day                   day
 *   8                 cut                   cut
 *
 * A point of a cut of the last year may lie past the calendar's last day. */

/* How many numbers a month's row has, and how many rows a year by value. */
enum {
    ZHENGGUANG_ROW_NUMBERS = 10,
    LINDE_ROW_NUMBERS = 8,
    XINGHE_YEAR_ROWS = 13
};

/* The head of a year of the Zhengguang calendar. Refused: 1.
 * out[0]  months of the calendar before the year: those before the month whose
 *         days contain the day of its winter solstice
 * out[1]  leap remainder of the chapter, over 505; it does not tell the count
 * out[2]  month count, 12 or 13
 * out[3]  place of the leap month, in whose days no middle term falls; 0 where
 *         there is none
 * out[4]  day of the winter solstice
 * out[5]  its remainder, over 6,060 */
uint64_t zhengguang_year_head(uint64_t year, uint64_t out[6]);

/* The row of the month at a place of a year. Refused: 1, 2.
 * out[0]  month of the calendar
 * out[1]  year
 * out[2]  place
 * out[3]  month number, 1 to 12; a leap month has that of the month before it
 * out[4]  1 for the leap month, else 0
 * out[5]  first day
 * out[6]  small remainder of the new moon, over 74,952
 * out[7]  length, 29 or 30 days
 * of the new moon, as zhengguang_nodes has them
 * out[8]  degrees since the last node
 * out[9]  their remainder, over 74,952 */
uint64_t zhengguang_month_row(uint64_t year, uint64_t place,
                              uint64_t out[ZHENGGUANG_ROW_NUMBERS]);

/* The day of a date; days of a month are counted from 1. Refused: 1, 2, 3.
 * out[0]  day number
 * out[1]  day of the sixty, 1 to 60; jiazi is 1 */
uint64_t zhengguang_day_of_date(uint64_t year, uint64_t place, uint64_t day,
                                uint64_t out[2]);

/* The date of a day. Refused: 7.
 * out[0]  year
 * out[1]  place
 * out[2]  day of the month, from 1 */
uint64_t zhengguang_date_of_day(uint64_t number, uint64_t out[3]);

/* The row so many months on, or back where the count is negative. The row is
 * handed in as zhengguang_month_row writes it. Refused: 4, 5.
 * out     the row reached, as zhengguang_month_row writes it */
uint64_t zhengguang_carry(const uint64_t row[ZHENGGUANG_ROW_NUMBERS],
                          int64_t count, uint64_t out[ZHENGGUANG_ROW_NUMBERS]);

/* A row carried by each of the counts in turn; a count that would lead outside
 * the calendar is passed over. Refused: 4.
 * counts     the counts, of which there are `length`
 * out        the last row, as zhengguang_month_row writes it
 * totals[0]  1 where the sum of the answered counts is below 0, else 0
 * totals[1]  the size of that sum
 * totals[2]  how many counts were answered */
uint64_t zhengguang_walk(const uint64_t row[ZHENGGUANG_ROW_NUMBERS],
                         const int64_t *counts, size_t length,
                         uint64_t out[ZHENGGUANG_ROW_NUMBERS],
                         uint64_t totals[3]);

/* A year by value. Refused: 1.
 * head     its head, as zhengguang_year_head writes it
 * rows[i]  the row at place i, as zhengguang_month_row writes it; all zeros
 *          where the year has no such place */
uint64_t
zhengguang_year(uint64_t year, uint64_t head[6],
                uint64_t rows[XINGHE_YEAR_ROWS][ZHENGGUANG_ROW_NUMBERS]);

/* A point of a cut of the year: 24 terms, 72 pentads or 60 hexagram days, from
 * the winter solstice at index 0. Refused: 1, 8.
 * out[0]  day
 * out[1]  remainder, over 6,060
 * out[2]  rest of a part, over the cut */
uint64_t zhengguang_cut_point(uint64_t year, uint64_t cut, uint64_t index,
                              uint64_t out[3]);

/* The moon's distances since the last node, of a month. Refused: 1, 2.
 * new moon
 * out[0]  degrees
 * out[1]  their remainder, over 74,952
 * out[2]  and half a part more: always 0
 * full moon, half a month later
 * out[3]  degrees
 * out[4]  their remainder, over 74,952
 * out[5]  and half a part more: always 1, since P is odd */
uint64_t zhengguang_nodes(uint64_t year, uint64_t place, uint64_t out[6]);

/* The head of a year of the Linde calendar, which has no chapter. Refused: 1.
 * out[0]  months of the calendar before the year: those before the month whose
 *         days contain the day of its winter solstice
 * out[1]  month count, 12 or 13
 * out[2]  place of the leap month, in whose days no middle term falls; 0 where
 *         there is none
 * out[3]  day of the winter solstice
 * out[4]  its remainder, over 1,340 */
uint64_t linde_year_head(uint64_t year, uint64_t out[5]);

/* The row of the month at a place of a year. Refused: 1, 2.
 * out[0]  month of the calendar
 * out[1]  year
 * out[2]  place
 * out[3]  month number, 1 to 12; a leap month has that of the month before it
 * out[4]  1 for the leap month, else 0
 * out[5]  first day
 * out[6]  small remainder of the new moon, over 1,340
 * out[7]  length, 29 or 30 days */
uint64_t linde_month_row(uint64_t year, uint64_t place,
                         uint64_t out[LINDE_ROW_NUMBERS]);

/* The day of a date; days of a month are counted from 1. Refused: 1, 2, 3.
 * out[0]  day number
 * out[1]  day of the sixty, 1 to 60; jiazi is 1 */
uint64_t linde_day_of_date(uint64_t year, uint64_t place, uint64_t day,
                           uint64_t out[2]);

/* The date of a day. Refused: 7.
 * out[0]  year
 * out[1]  place
 * out[2]  day of the month, from 1 */
uint64_t linde_date_of_day(uint64_t number, uint64_t out[3]);

/* The row so many months on, or back where the count is negative. The row is
 * handed in as linde_month_row writes it. Refused: 4, 5.
 * out     the row reached, as linde_month_row writes it */
uint64_t linde_carry(const uint64_t row[LINDE_ROW_NUMBERS], int64_t count,
                     uint64_t out[LINDE_ROW_NUMBERS]);

/* A row carried by each of the counts in turn; a count that would lead outside
 * the calendar is passed over. Refused: 4.
 * counts     the counts, of which there are `length`
 * out        the last row, as linde_month_row writes it
 * totals[0]  1 where the sum of the answered counts is below 0, else 0
 * totals[1]  the size of that sum
 * totals[2]  how many counts were answered */
uint64_t linde_walk(const uint64_t row[LINDE_ROW_NUMBERS],
                    const int64_t *counts, size_t length,
                    uint64_t out[LINDE_ROW_NUMBERS], uint64_t totals[3]);

/* A year by value. Refused: 1.
 * head     its head, as linde_year_head writes it
 * rows[i]  the row at place i, as linde_month_row writes it; all zeros where
 *          the year has no such place */
uint64_t linde_year(uint64_t year, uint64_t head[5],
                    uint64_t rows[XINGHE_YEAR_ROWS][LINDE_ROW_NUMBERS]);

/* A point of a cut of the year: 24 terms, 72 pentads or 60 hexagram days, from
 * the winter solstice at index 0. Refused: 1, 8.
 * out[0]  day
 * out[1]  remainder, over 1,340
 * out[2]  rest of a part, over the cut */
uint64_t linde_cut_point(uint64_t year, uint64_t cut, uint64_t index,
                         uint64_t out[3]);

#ifdef __cplusplus
}
#endif

#endif
