/* Turns figures of the lamp meter into correction words, and prints each word with the correction that it is.
 *
 *     cc -std=c11 -Wall -Wextra -Iinclude examples/meter.c -Ltarget/staticlib -ldiilvak_meter -o meter
 */
#include "diilvak_meter.h"

#include <stdio.h>

static diilvak_reported steady(float number)
{
    const diilvak_reported figure = {number, 0, DIILVAK_STEADY};
    return figure;
}

static diilvak_reported drifting(float first, float second)
{
    const diilvak_reported figure = {first, second, DIILVAK_DRIFTING};
    return figure;
}

static void print_figure(const char *name, const diilvak_reported *figure)
{
    printf("%s=%g", name, figure->first);
    if (figure->drifting != DIILVAK_STEADY)
        printf(",%g", figure->second);
    printf(" ");
}

static void print_word(diilvak_reported lamp, diilvak_reported dark)
{
    const diilvak_report report = {lamp, dark};
    uint16_t word;

    print_figure("lamp", &lamp);
    print_figure("dark", &dark);
    if (diilvak_meter_word(report, &word) == DIILVAK_BAD_FIGURE)
        printf("refused=%d\n", DIILVAK_BAD_FIGURE);
    else
        printf("word=%d correction=%d\n", word, word < 32768 ? word : word - 65536);
}

int main(void)
{
    /* Halves are rounded away from zero. */
    print_word(steady(2.5f), steady(0));
    print_word(steady(0), steady(2.5f));

    /* The mean is 10.125, and the difference -2.625. */
    print_word(drifting(10, 10.25f), steady(7.5f));
    print_word(drifting(0.25f, 0.5f), steady(0));

    /* The largest corrections. */
    print_word(steady(8192), steady(0));
    print_word(steady(0), drifting(8192, 8192));

    /* 0.125 can be a mean, but is no count of quarters; 8192.25 is out of the range. */
    print_word(drifting(0.125f, 0.125f), steady(0));
    print_word(steady(0), steady(8192.25f));
    return 0;
}
