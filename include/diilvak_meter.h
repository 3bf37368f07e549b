/* diilvak_meter.h -- the lamp meter's figures, turned into a correction.
 *
 * The lamp meter reports a lamp figure and a dark figure, with fractions. This library gives the word of the
 * correction that follows from the two, as diilvak_correct takes it. It is an add-on, libdiilvak_meter.a,
 * which stands by itself: it needs neither diilvak.h nor libdiilvak.a. Its results are exact: the code is
 * proved, for every input, to give what the comments below say.
 *
 *
 * FIGURES
 *
 * A figure is steady, one number, or drifting, two numbers whose mean is taken. The numbers are 32-bit floats
 * from 0 to 8192 in quarters: 0, 0.25, 0.5 and so on, both ends included. Minus zero counts as 0. Of the two
 * numbers of a drifting figure either may be the larger, and their mean may lie half way between quarters.
 *
 *
 * THE CORRECTION
 *
 * The correction is the dark figure less the lamp figure, rounded to a whole level, halves away from zero:
 * 2.5 gives 3, and -2.5 gives -3. Nothing but this difference is rounded. The same sum in whole eighths: a
 * steady figure has 8 times its number, a drifting one 4 times the sum of its numbers, and d is what the dark
 * one has less what the lamp one has. The correction is |d| + 4 over 8, without its fraction, with d's sign.
 *
 * It is -8192 to 8192, and is given as a 16-bit word in two's complement: 0 to 8192 stand for themselves, and
 * 57344 to 65535 for -8192 to -1. diilvak_correct accepts each of these words.
 *
 * Examples:
 *
 *     lamp              dark              dark less lamp    word
 *     2.5               0                 -2.5              65533   (-3)
 *     0                 2.5                2.5              3
 *     10 and 10.25      7.5               -2.625            65533   (-3)
 *     0.25 and 0.5      0                 -0.375            0
 *     0.5               0                 -0.5              65535   (-1)
 *     8192              0                 -8192             57344   (-8192)
 *     0                 8192 and 8192      8192             8192
 *     -0                -0 and -0          0                0
 *
 *
 * REFUSAL
 *
 * There is one, with a number that no call of diilvak.h has:
 *
 *     19  a number of either figure is not finite, not a whole count of quarters, below 0, or above 8192
 *
 * So 0.125, 8192.25, -0.25, a NaN, an infinity and the least number above 0 are refused, wherever they stand.
 * Each number is judged before a mean is taken: 0.125 and 0.125 are refused, while the mean of 0 and 0.25 is
 * as good as any. The lamp figure is judged first, which makes no difference to the number.
 *
 *
 * WHAT THE CALLER OWES
 *
 * The pointer is not NULL, is aligned for its type, and overlaps nothing else.
 *
 * The processor's floats are as a program finds them when it starts: no exception of theirs stops it, and
 * subnormal numbers are not taken as 0. In a thread where they are, which gcc's -ffast-math can bring about,
 * they may pass as 0 here too, in place of 19. The direction of rounding makes no difference.
 *
 * The library allocates nothing, keeps nothing between calls, and touches no memory but what it is lent and
 * its own stack, where a call finds room in DIILVAK_METER_STACK bytes. Calls may run at the same time in
 * several threads, as long as none writes what another is lent.
 */
#ifndef DIILVAK_METER_H
#define DIILVAK_METER_H

#include <stddef.h>
#include <stdint.h>

#ifdef __cplusplus
extern "C" {
#endif

/* The version of this header, 0.1.0, as one number: major * 10000 + minor * 100 + patch. */
#define DIILVAK_METER_VERSION 100

/* The largest number that the meter may report. */
#define DIILVAK_MAX_FIGURE 8192

/* Bytes of stack in which a call finds room. */
#define DIILVAK_METER_STACK 4096

/* The two kinds of figures. */
#define DIILVAK_STEADY 0
#define DIILVAK_DRIFTING 1

/* The refusal. */
#define DIILVAK_BAD_FIGURE 19

/* A figure. Where drifting is 0 it is steady, and second is not looked at; any other number is drifting. */
typedef struct diilvak_reported {
    float first;
    float second;
    size_t drifting;
} diilvak_reported;

/* Both figures. */
typedef struct diilvak_report {
    diilvak_reported lamp;
    diilvak_reported dark;
} diilvak_report;

/* The version of the library: DIILVAK_METER_VERSION as it was when the library was built.
 *
 * A program that is linked with the library of its header finds the two equal.
 */
size_t diilvak_meter_version(void);

/* Gives the word of the correction that the two figures make, as under THE CORRECTION above.
 *
 * report   both figures
 * word     the word
 *
 * Returns 0, with *word written, or
 *     19   a number of the lamp figure or of the dark figure may not be reported
 * and leaves *word as it was.
 */
size_t diilvak_meter_word(diilvak_report report, uint16_t *word);

#ifdef __cplusplus
}
#endif

#endif
