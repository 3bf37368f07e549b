/* Enters traces of a small plate in a findings book, withdraws some, and prints after each call which
 * serial numbers stand, each with its level.
 *
 *     cc -std=c11 -Wall -Wextra -Iinclude examples/book.c -Ltarget/staticlib -ldiilvak -o book
 */
#include "diilvak_book.h"

#include <inttypes.h>
#include <stdio.h>

enum { WIDTH = 4, HEIGHT = 1, PIXELS = WIDTH * HEIGHT };
enum { LENGTH = 4, GAPS = 1, WORK = 4 * (GAPS + 1) * PIXELS };

static const int16_t plate[PIXELS] = {9, 5, 12, 8};

static size_t path[LENGTH];
static uint16_t work[WORK];
static diilvak_book book;

/* Takes over the book, which is the old one where the call was refused. */
static void keep(const diilvak_kept *kept)
{
    book = kept->book;
    if (kept->number != DIILVAK_DONE)
        printf(" refused=%zu", kept->number);
    printf(" standing=");
    for (size_t i = 0; i < book.count; i++)
        printf("%s%" PRIu32 ":%d", i == 0 ? "" : ",", book.entries[i].serial, book.entries[i].level);
    printf("\n");
}

static void enter(uint16_t number, size_t place, size_t mode)
{
    const diilvak_pixel pixel = {number, place};
    size_t direction;
    int16_t level;

    printf("enter=%u,%zu,%zu", (unsigned)number, place, mode);
    diilvak_kept kept = diilvak_enter_trace(WIDTH, HEIGHT, plate, PIXELS, LENGTH, GAPS, DIILVAK_EAST,
                                            mode, DIILVAK_ENDS_ANYWHERE, pixel, book,
                                            path, LENGTH, work, WORK, &direction, &level);
    if (kept.number == DIILVAK_DONE)
        printf(" serial=%" PRIu32 " level=%d", kept.book.last, level);
    keep(&kept);
}

static void withdraw(uint32_t serial)
{
    printf("withdraw=%" PRIu32, serial);
    diilvak_kept kept = diilvak_withdraw(book, serial);
    keep(&kept);
}

int main(void)
{
    book = diilvak_new_book();
    enter(7, 0, DIILVAK_OPENING);
    enter(7, 1, DIILVAK_OPENING);
    enter(7, 0, DIILVAK_CLOSING);

    /* The first entry is superseded: it cannot be withdrawn, and does not come back. */
    enter(7, 0, DIILVAK_OPENING);
    withdraw(1);
    withdraw(4);
    withdraw(4);
    enter(7, 0, DIILVAK_OPENING);
    return 0;
}
