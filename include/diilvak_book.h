/* diilvak_book.h -- the findings book: traces entered under serial numbers, superseded and withdrawn.
 *
 * A trace that is worth keeping is entered in a book. A later trace of the same pixel, in the same mode,
 * takes the place of the earlier one, and an entry can be withdrawn by its serial number. diilvak.h has
 * plates, settings, the table of refusals, and what a caller owes.
 *
 *
 * BOOKS
 *
 * A book is a counter, the last serial number given, and the entries that stand, up to 256 of them in the
 * order of entering. It is handed to each call by value and handed back, as a number would be: the library
 * keeps none, and a program may have as many as it likes, copy them and write them to files.
 *
 *     serial      the number of the entry, from 1, one counter for the whole book
 *     plate       the number of the plate, any of 16 bits: the caller's own name for it
 *     place       the place of the pixel on that plate
 *     mode        0 opening, 1 closing
 *     level       the level that the trace has found
 *     direction   the bit of the direction that it has found
 *
 * Plate, place and mode are the key of an entry. Length, gaps, directions and ends are not part of it: a
 * trace of the same pixel by another length supersedes the earlier one, and one in the other mode does not.
 *
 * Entering gives the entry the next serial number, takes out every entry of its key, and adds it behind
 * the others. Withdrawing takes out every entry of a serial number. What is taken out leaves room for later
 * entries. It does not come back: a withdrawn entry does not restore the one that it superseded, and no
 * serial number is given twice.
 *
 * So, after any calls on a new book, each done or refused, what stands for a key is the last entry that was
 * accepted for it, alone, or nothing where that one was withdrawn.
 *
 * Example: the row 9, 5, 12, 8, on the plate with number 7, with length 4, gaps 1, direction east and a new
 * book.
 *
 *     call                        number   serial numbers that stand           last
 *     enter place 0, opening      0        1 (level 8)                         1
 *     enter place 1, opening      0        1, 2 (level 5)                      2
 *     enter place 0, closing      0        1, 2, 3 (level 9)                   3
 *     enter place 0, opening      0        2, 3, 4 (level 8): 1 is superseded  4
 *     withdraw 1                  17       2, 3, 4                             4
 *     withdraw 4                  0        2, 3: 1 does not come back          4
 *     withdraw 4                  17       2, 3                                4
 *     enter place 0, opening      0        2, 3, 5 (level 8)                   5
 *
 *
 * ANY BOOK IS ANSWERED
 *
 * A book starts with diilvak_new_book. One that was put together by hand, read from a file, or spoilt is
 * answered like any other: by what it shows. It may show more than 256 entries; then every call is refused,
 * with 15 where no earlier number applies, and reads none of them. It may have a key or a serial number
 * twice, serial numbers of 0 or above its counter, and any numbers in its entries. What its unused slots
 * hold never changes an answer.
 *
 * A refused call hands the book back as it came, to the last slot. One that is done hands back a book whose
 * slots are all 0 behind the entries that stand. The padding bytes of the structs are no part of them and
 * hold anything: compare the fields, and not the memory.
 *
 *
 * STACK
 *
 * A book has some 10 KB. The one that a call is handed is copied to the caller's stack, and the one that it
 * hands back lies where the caller puts it. Beside these diilvak_enter_trace finds room in
 * DIILVAK_ENTER_STACK bytes of stack, and diilvak_withdraw in DIILVAK_WITHDRAW_STACK; diilvak_new_book takes
 * less.
 */
#ifndef DIILVAK_BOOK_H
#define DIILVAK_BOOK_H

#include "diilvak.h"

#ifdef __cplusplus
extern "C" {
#endif

/* Limits. */
#define DIILVAK_MAX_ENTRIES 256
#define DIILVAK_MAX_SERIAL 4294967295

/* Bytes of stack in which a call finds room. */
#define DIILVAK_ENTER_STACK 131072
#define DIILVAK_WITHDRAW_STACK 98304

/* A trace that was entered. */
typedef struct diilvak_entry {
    uint32_t serial;
    uint16_t plate;
    size_t place;
    size_t mode;
    int16_t level;
    size_t direction;
} diilvak_entry;

/* The first count entries stand, in the order of entering; last is the last serial number given. */
typedef struct diilvak_book {
    uint32_t last;
    size_t count;
    diilvak_entry entries[DIILVAK_MAX_ENTRIES];
} diilvak_book;

/* What a call hands back: 0 or the number of the refusal, and the book. */
typedef struct diilvak_kept {
    size_t number;
    diilvak_book book;
} diilvak_kept;

/* A pixel of a numbered plate. */
typedef struct diilvak_pixel {
    uint16_t plate;
    size_t place;
} diilvak_pixel;

/* A book in which nothing stands: its counter, its count and all of its slots are 0. */
diilvak_book diilvak_new_book(void);

/* Traces a path through a pixel, as diilvak_trace does, and enters the trace in a book.
 *
 * plate       width * height levels
 * pixel       the number of the plate, and the place of the pixel on it
 * book        the book as it was handed back last
 * path        room for length places
 * work        room for at least diilvak_work_length(width, height, gaps) numbers
 * direction   the direction of the path
 * level       the level of the pixel
 *
 * Returns number 0, and then
 *   - path, *direction and *level are what diilvak_trace may give for this plate, setting and place, which
 *     has all that holds of them;
 *   - the book handed back has the counter book.last + 1; in it stand the entries of book that have another
 *     plate number, place or mode, in their order, and behind them the new entry: its serial number is that
 *     counter, its plate and its place are those of pixel, its mode is that of the call, its level is *level
 *     and its direction is *direction. All slots behind it are 0.
 *
 * Or it returns the number
 *     1    bad size
 *     2    length is 0 or above 1024
 *     3    gaps is above 8, or not less than length
 *     4    directions is 0 or above 15
 *     5    mode is above 1
 *     18   ends is above 1
 *     6    plate_len is not width * height
 *     7    path_len is not length
 *     8    work_len is less than 4 * (gaps + 1) * width * height
 *     11   pixel.place is not below width * height
 *     12   no path of this length, in one of the directions, goes through the pixel
 *     15   book.count is above 256, or it is 256 and no entry has this plate number, place and mode
 *     16   book.last is DIILVAK_MAX_SERIAL, also where the entry would supersede another
 * in this order. All are judged before anything is written: a refused call leaves path, work, *direction and
 * *level as they were and hands book back as it came. After a call that is done, what work holds is of no
 * use. plate is only read.
 */
diilvak_kept diilvak_enter_trace(size_t width, size_t height,
                                 const int16_t *plate, size_t plate_len,
                                 size_t length, size_t gaps, size_t directions, size_t mode, size_t ends,
                                 diilvak_pixel pixel, diilvak_book book,
                                 size_t *path, size_t path_len,
                                 uint16_t *work, size_t work_len,
                                 size_t *direction, int16_t *level);

/* Withdraws every entry of a serial number from a book.
 *
 * Returns number 0, and the book without these entries, the others in their order. Its counter is that of
 * book, and all slots behind the entries that stand are 0.
 *
 * Or it returns the number
 *     15   book.count is above 256
 *     17   no entry that stands has the serial number: it was never given, was superseded, or was withdrawn
 * in this order, and book as it came.
 */
diilvak_kept diilvak_withdraw(diilvak_book book, uint32_t serial);

#ifdef __cplusplus
}
#endif

#endif
