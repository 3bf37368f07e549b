/* diilvak.h -- exact path openings and closings of grey plates, and the path through a pixel.
 *
 * A crack on a photographed wall is long, thin and seldom straight. A path opening keeps, at every
 * pixel, only the brightness that lies on some long path through it; a closing does the same for
 * dark cracks. This library corrects a plate of readings, opens or closes it, and traces the path
 * through a pixel of your choice; of a plate that poor light leaves between two levels it tells what
 * can be left of it at least and at most. Its results are exact: the code is proved, for every input,
 * to give what the comments below say. diilvak_book.h has the findings book, in which traces are entered.
 *
 *
 * PLATES
 *
 * A plate has W columns and H rows of 16-bit signed levels, stored row by row from the top. The
 * pixel in column c and row r, both counted from 0, has the place r * W + c. W and H are 1 to 1024,
 * and W * H is at most 65536. Every 16-bit level is allowed.
 *
 *
 * DIRECTIONS AND PATHS
 *
 * A direction has a bit and three steps, numbered 0, 1, 2, each a change of column and of row:
 *
 *     bit               step 0      step 1      step 2
 *     1  north          (-1,-1)     ( 0,-1)     ( 1,-1)
 *     2  east           ( 1,-1)     ( 1, 0)     ( 1, 1)
 *     4  north-east     ( 1, 0)     ( 1,-1)     ( 0,-1)
 *     8  south-east     ( 1, 0)     ( 1, 1)     ( 0, 1)
 *
 * A set of directions is the sum of their bits, 1 to 15. A path of length L is L pixels of the plate,
 * each reached from the one before by a step of one and the same direction. It goes through each of
 * its L pixels.
 *
 *
 * SETTINGS
 *
 *     length       L, the pixels of a path, 1 to 1024
 *     gaps         k, how many pixels of a path may be missing, 0 to 8 and less than L
 *     directions   the set of directions, 1 to 15
 *     mode         0 opening (light cracks), 1 closing (dark cracks)
 *     ends         0 the ends of a path may be missing too, 1 they may not: a crack ends on crack
 *
 * Opening: the new level of a pixel is the highest level t, not above its own, such that some path of
 * length L through it, in one of the directions, counts at t: at most k of its pixels are below t, and
 * with ends 1 its first pixel and its last are none of those. (A path of length 1 has one pixel that
 * is both.) Where no path of length L goes through the pixel at all, the new level is -32768.
 *
 * Closing: every level v is mirrored to -1 - v, the plate is opened, and mirrored back. So the new
 * level is the lowest t, not below the pixel's own, such that some path has at most k pixels above t,
 * with ends 1 neither end among them, and 32767 where there is no path.
 *
 * Example: the row 5, 9, 12, 8, opened with length 4, gaps 1 and direction east, is 5, 8, 8, 8 with ends
 * 0, where the first pixel is the gap, and 5, 5, 5, 5 with ends 1. Filtering twice by one setting is
 * filtering once. Filtering by two lengths is filtering by the larger of them with ends 0, and need not
 * be with ends 1.
 *
 *
 * REFUSALS
 *
 * Every function answers every input. diilvak_check_setting, diilvak_correct, diilvak_filter,
 * diilvak_filter_between and diilvak_trace return 0 where the call is done, and otherwise the number of
 * the first cause in this table that applies to the call (18 stands where it is judged). The calls of
 * diilvak_book.h hand that number back beside the book; 15, 16 and 17 are theirs alone, and are judged in
 * this order, after 12 where a trace is entered:
 *
 *     1   width or height is 0 or above 1024, or width * height is above 65536
 *     2   length is 0 or above 1024
 *     3   gaps is above 8, or not less than length
 *     4   directions is 0 or above 15
 *     5   mode is above 1
 *     18  ends is above 1
 *     6   an input buffer does not have exactly width * height numbers
 *     7   a result does not have exactly width * height numbers, or the path not exactly length
 *     8   the work buffer has less than 4 * (gaps + 1) * width * height numbers
 *     9   a reading is above DIILVAK_MAX_READING
 *     10  a correction is below DIILVAK_MIN_CORRECTION or above DIILVAK_MAX_CORRECTION
 *     11  the traced place is not below width * height
 *     12  no path of that length, in one of the directions, goes through the pixel
 *     15  256 entries stand in the book and the new one supersedes none, or it shows more than 256
 *     16  the book's counter is at DIILVAK_MAX_SERIAL
 *     17  no entry that stands in the book has the serial number
 *     20  a level of the lowest plate is above that of the highest
 *
 * A refused call leaves every buffer and number that was lent to it as it was, but for the place that
 * diilvak_correct and diilvak_filter_between report. Sizes and settings are size_t: a negative number
 * turns into a large one and is refused.
 *
 * The results of the other three functions of this header are no refusal numbers: diilvak_step returns
 * whether there is such a step, 1 or 0, diilvak_work_length a length, which is 0 for a size or a gap
 * count that would be refused, and diilvak_version the version.
 *
 *
 * WHAT THE CALLER OWES
 *
 * A buffer is a pointer and then its length, in numbers and not in bytes; a number to be written is a
 * pointer alone. The pointer is not NULL, also where the length is 0, is aligned for its type, and
 * the memory behind it holds as many numbers as the length says. What a call writes (every pointer
 * without const) overlaps nothing else that is lent to the same call.
 *
 * The library allocates nothing, keeps nothing between calls, and touches no memory but what it is
 * lent and its own stack. A filter finds room in DIILVAK_FILTER_STACK bytes of stack, between two plates
 * too, since it takes one after the other, and a trace in DIILVAK_TRACE_STACK, whatever the plate and the
 * setting; the other calls of this header take next to nothing. Where a thread has less left, the call
 * runs past its end, which the library cannot tell.
 *
 * Calls may run at the same time in several threads, as long as none writes what another is lent. Work,
 * path and result buffers need not be cleared: what they held never changes an answer.
 */
#ifndef DIILVAK_H
#define DIILVAK_H

#include <stddef.h>
#include <stdint.h>

#ifdef __cplusplus
extern "C" {
#endif

/* The version of this header, 0.6.0, as one number: major * 10000 + minor * 100 + patch. */
#define DIILVAK_VERSION 600

/* Limits. */
#define DIILVAK_MAX_SIDE 1024
#define DIILVAK_MAX_PIXELS 65536
#define DIILVAK_MAX_READING 16383
#define DIILVAK_MIN_CORRECTION (-16384)
#define DIILVAK_MAX_CORRECTION 16383
#define DIILVAK_MAX_LENGTH 1024
#define DIILVAK_MAX_GAPS 8
#define DIILVAK_MAX_DIRECTIONS 15
#define DIILVAK_MAX_MODE 1
#define DIILVAK_MAX_ENDS 1

/* Bytes of stack in which a call finds room. */
#define DIILVAK_FILTER_STACK 196608
#define DIILVAK_TRACE_STACK 98304

/* Bits of the directions. */
#define DIILVAK_NORTH 1
#define DIILVAK_EAST 2
#define DIILVAK_NORTH_EAST 4
#define DIILVAK_SOUTH_EAST 8

/* Modes. */
#define DIILVAK_OPENING 0
#define DIILVAK_CLOSING 1

/* Where a path may end. */
#define DIILVAK_ENDS_ANYWHERE 0
#define DIILVAK_ENDS_ON_CRACK 1

/* Done, and the refusals of the table above. */
#define DIILVAK_DONE 0
#define DIILVAK_BAD_SIZE 1
#define DIILVAK_BAD_LENGTH 2
#define DIILVAK_BAD_GAPS 3
#define DIILVAK_BAD_DIRECTIONS 4
#define DIILVAK_BAD_MODE 5
#define DIILVAK_BAD_INPUT 6
#define DIILVAK_BAD_RESULT 7
#define DIILVAK_BAD_WORK 8
#define DIILVAK_BAD_READING 9
#define DIILVAK_BAD_CORRECTION 10
#define DIILVAK_BAD_PLACE 11
#define DIILVAK_NO_PATH 12
#define DIILVAK_BOOK_FULL 15
#define DIILVAK_SERIALS_SPENT 16
#define DIILVAK_NO_ENTRY 17
#define DIILVAK_BAD_ENDS 18
#define DIILVAK_BAD_BOUNDS 20

/* The version of the library: DIILVAK_VERSION as it was when the library was built.
 *
 * A program that is linked with the library of its header finds the two equal.
 */
size_t diilvak_version(void);

/* Judges a setting.
 *
 * Returns 0 where it is within the limits, and otherwise 2, 3, 4, 5 or 18. Nothing is written. Every
 * other function judges its setting itself: this one is for telling a user early.
 */
size_t diilvak_check_setting(size_t length, size_t gaps, size_t directions, size_t mode, size_t ends);

/* How many numbers the work buffer of a filter, between two plates too, or of a trace needs:
 * 4 * (gaps + 1) * width * height.
 *
 * Returns 0 where refusal 1 forbids the size or gaps is above 8. Nothing is written.
 */
size_t diilvak_work_length(size_t width, size_t height, size_t gaps);

/* Corrects a plate of readings: result[p] = readings[p] + the correction of words[p].
 *
 * readings   width * height numbers, each 0 to DIILVAK_MAX_READING
 * words      width * height corrections, DIILVAK_MIN_CORRECTION to DIILVAK_MAX_CORRECTION, each a
 *            16-bit word in two's complement: the word 65534 is the correction -2
 * result     room for width * height levels
 * place      the place that a refusal reports
 *
 * Returns 0, with every level of result written, or
 *     1    bad size
 *     6    readings_len or words_len is not width * height
 *     7    result_len is not width * height
 *     9    a reading is too large; *place is the first such place
 *     10   a correction is out of bounds; *place is the first such place
 * in this order: all readings are judged before any correction. *place is written by every call, and is
 * 0 where the result is not 9 or 10. A refused call leaves result as it was. readings and words are
 * only read.
 */
size_t diilvak_correct(size_t width, size_t height,
                       const uint16_t *readings, size_t readings_len,
                       const uint16_t *words, size_t words_len,
                       int16_t *result, size_t result_len,
                       size_t *place);

/* Opens (mode 0) or closes (mode 1) a plate, as under SETTINGS above.
 *
 * plate    width * height levels
 * result   room for width * height levels
 * work     room for at least diilvak_work_length(width, height, gaps) numbers
 *
 * Returns 0, with every level of result written, or
 *     1    bad size
 *     2    length is 0 or above 1024
 *     3    gaps is above 8, or not less than length
 *     4    directions is 0 or above 15
 *     5    mode is above 1
 *     18   ends is above 1
 *     6    plate_len is not width * height
 *     7    result_len is not width * height
 *     8    work_len is less than 4 * (gaps + 1) * width * height
 * in this order. A refused call leaves result and work as they were; after a call that is done, what
 * work holds is of no use. plate is only read.
 *
 * Where length is larger than any path of the directions (north: height; east: width; north-east and
 * south-east: width + height - 1), the call is done and every level is -32768, or 32767 in mode 1.
 */
size_t diilvak_filter(size_t width, size_t height,
                      const int16_t *plate, size_t plate_len,
                      size_t length, size_t gaps, size_t directions, size_t mode, size_t ends,
                      int16_t *result, size_t result_len,
                      uint16_t *work, size_t work_len);

/* Opens (mode 0) or closes (mode 1) a plate that is known between two levels: in poor light each pixel
 * has a lowest level and a highest, and the true plate may have any level between them.
 *
 * lowest           width * height levels: the lowest that each pixel can have
 * highest          width * height levels: the highest that each pixel can have
 * lowest_result    room for width * height levels
 * highest_result   room for width * height levels
 * work             room for at least diilvak_work_length(width, height, gaps) numbers, used for one plate
 *                  after the other
 * place            the place that a refusal reports
 *
 * Returns 0, and then, by this setting, in either mode,
 *   - lowest_result is what diilvak_filter gives for lowest, and highest_result what it gives for highest;
 *   - every plate that is at no pixel below lowest or above highest is filtered to one that is at no pixel
 *     below lowest_result or above highest_result;
 *   - both results are reached by such plates, at every pixel, so that no closer ones would do.
 *
 * Or it returns
 *     1    bad size
 *     2    length is 0 or above 1024
 *     3    gaps is above 8, or not less than length
 *     4    directions is 0 or above 15
 *     5    mode is above 1
 *     18   ends is above 1
 *     6    lowest_len or highest_len is not width * height
 *     7    lowest_result_len or highest_result_len is not width * height
 *     8    work_len is less than 4 * (gaps + 1) * width * height
 *     20   a level of lowest is above that of highest; *place is the first such place
 * in this order. *place is written by every call, and is 0 where the result is not 20. A refused call
 * leaves both results and work as they were; after a call that is done, what work holds is of no use.
 * lowest and highest are only read, and may be the same buffer.
 *
 * Example: lowest 9, 5, 12, 8 and highest 9, 6, 12, 9, opened with length 4, gaps 1 and direction east,
 * give 8, 5, 8, 8 and 9, 6, 9, 9.
 */
size_t diilvak_filter_between(size_t width, size_t height,
                              const int16_t *lowest, size_t lowest_len,
                              const int16_t *highest, size_t highest_len,
                              size_t length, size_t gaps, size_t directions, size_t mode, size_t ends,
                              int16_t *lowest_result, size_t lowest_result_len,
                              int16_t *highest_result, size_t highest_result_len,
                              uint16_t *work, size_t work_len,
                              size_t *place);

/* Traces a path through the pixel at a place.
 *
 * plate       width * height levels
 * at          the place of the pixel
 * path        room for length places
 * work        room for at least diilvak_work_length(width, height, gaps) numbers
 * direction   the direction of the path
 * level       the level of the pixel
 *
 * Returns 0, and then
 *   - path holds the length places of a path through at, in walking order, every step of it a step of
 *     the one direction whose bit is in *direction, which is one of directions;
 *   - *level is the level that diilvak_filter, by the same setting, gives that pixel;
 *   - in mode 0 at most gaps pixels of the path are below *level, in mode 1 at most gaps are above it;
 *     with ends 1 its first pixel and its last are none of those.
 * Of several such paths any may be shown. Tracing the filtered plate at the same place, by the same
 * setting, is done too, and gives the same level.
 *
 * Or it returns
 *     1    bad size
 *     2    length is 0 or above 1024
 *     3    gaps is above 8, or not less than length
 *     4    directions is 0 or above 15
 *     5    mode is above 1
 *     18   ends is above 1
 *     6    plate_len is not width * height
 *     7    path_len is not length
 *     8    work_len is less than 4 * (gaps + 1) * width * height
 *     11   at is not below width * height
 *     12   no path of this length, in one of the directions, goes through the pixel
 * in this order. A refused call leaves path, work, *direction and *level as they were; after a call
 * that is done, what work holds is of no use. plate is only read.
 *
 * Refusal 12 does not depend on the pixel, nor on gaps, mode or ends: it is given exactly where length
 * is larger than any path of the directions (north: height; east: width; north-east and south-east:
 * width + height - 1).
 */
size_t diilvak_trace(size_t width, size_t height,
                     const int16_t *plate, size_t plate_len,
                     size_t length, size_t gaps, size_t directions, size_t mode, size_t ends,
                     size_t at,
                     size_t *path, size_t path_len,
                     uint16_t *work, size_t work_len,
                     size_t *direction, int16_t *level);

/* Takes one step from the pixel at a place.
 *
 * direction   the bit of a direction: 1, 2, 4 or 8
 * number      the number of its step: 0, 1 or 2
 * to          the place that the step leads to
 *
 * Returns 1, with *to written, where the step leads to a pixel of the plate. Returns 0, with *to as it
 * was, where the step would leave the plate, and also where there is no such step: refusal 1 forbids
 * the size, place is not below width * height, or the direction or the step number does not exist.
 */
size_t diilvak_step(size_t width, size_t height, size_t direction, size_t place, size_t number,
                    size_t *to);

#ifdef __cplusplus
}
#endif

#endif
