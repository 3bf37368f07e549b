/* Opens a small plate that poor light leaves between two levels, and prints the lowest and the highest
 * level that can be kept at each pixel.
 *
 *     cc -std=c11 -Wall -Wextra -Iinclude examples/between.c -Ltarget/staticlib -ldiilvak -o between
 */
#include "diilvak.h"

#include <stdio.h>
#include <stdlib.h>

enum { WIDTH = 4, HEIGHT = 1, PIXELS = WIDTH * HEIGHT };
enum { LENGTH = 4, GAPS = 1, WORK = 4 * (GAPS + 1) * PIXELS };

/* The second pixel and the last are not known for certain. */
static const int16_t lowest[PIXELS] = {9, 5, 12, 8};
static const int16_t highest[PIXELS] = {9, 6, 12, 9};

static int16_t low[PIXELS], high[PIXELS];
static uint16_t work[WORK];

static size_t filter_between(const int16_t *from, const int16_t *to, size_t *place)
{
    return diilvak_filter_between(WIDTH, HEIGHT, from, PIXELS, to, PIXELS, LENGTH, GAPS, DIILVAK_EAST,
                                  DIILVAK_OPENING, DIILVAK_ENDS_ANYWHERE, low, PIXELS, high, PIXELS,
                                  work, WORK, place);
}

static void print_row(const char *name, const int16_t *levels)
{
    for (int p = 0; p < PIXELS; p++)
        printf("%s%c%d", p == 0 ? name : "", p == 0 ? '=' : ',', levels[p]);
    printf("\n");
}

int main(void)
{
    size_t place, number;

    number = filter_between(lowest, highest, &place);
    if (number != DIILVAK_DONE) {
        fprintf(stderr, "between: refusal %zu at place %zu\n", number, place);
        return EXIT_FAILURE;
    }
    print_row("lowest", low);
    print_row("highest", high);

    /* A lowest level above the highest is refused, with its place, and nothing is written. */
    number = filter_between(highest, lowest, &place);
    if (number == DIILVAK_BAD_BOUNDS)
        printf("the two plates exchanged: refused=%zu, place=%zu\n", number, place);
    return EXIT_SUCCESS;
}
