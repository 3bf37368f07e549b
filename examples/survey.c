/* Corrects, opens and traces a small plate, and prints what the program `survey` prints for it.
 *
 *     cc -std=c11 -Wall -Wextra -Iinclude examples/survey.c -Ltarget/staticlib -ldiilvak -o survey
 */
#include "diilvak.h"

#include <stdio.h>
#include <stdlib.h>

enum { WIDTH = 4, HEIGHT = 1, PIXELS = WIDTH * HEIGHT };
enum { LENGTH = 4, GAPS = 1, DIRECTIONS = DIILVAK_EAST, MODE = DIILVAK_OPENING };
enum { ENDS = DIILVAK_ENDS_ANYWHERE, AT = 0 };

/* 65534 is the correction -2: the second pixel has the level 5. */
static const uint16_t readings[PIXELS] = {9, 7, 12, 8};
static const uint16_t words[PIXELS] = {0, 65534, 0, 0};

static int refused(size_t number, size_t place)
{
    printf("refused=%zu\nplace=%zu\n", number, place);
    return EXIT_FAILURE;
}

int main(void)
{
    int16_t plate[PIXELS];
    int16_t opened[PIXELS];
    size_t path[LENGTH];
    size_t place, direction, number;
    int16_t level;

    if (diilvak_version() != DIILVAK_VERSION) {
        fprintf(stderr, "survey: diilvak.h is not of this library's version\n");
        return EXIT_FAILURE;
    }

    number = diilvak_correct(WIDTH, HEIGHT, readings, PIXELS, words, PIXELS, plate, PIXELS, &place);
    if (number != DIILVAK_DONE)
        return refused(number, place);

    size_t work_len = diilvak_work_length(WIDTH, HEIGHT, GAPS);
    uint16_t *work = malloc(work_len * sizeof *work);
    if (work == NULL)
        return EXIT_FAILURE;

    number = diilvak_filter(WIDTH, HEIGHT, plate, PIXELS, LENGTH, GAPS, DIRECTIONS, MODE, ENDS,
                            opened, PIXELS, work, work_len);
    if (number == DIILVAK_DONE) {
        printf("width=%d\nheight=%d\n", WIDTH, HEIGHT);
        for (int row = 0; row < HEIGHT; row++)
            for (int column = 0; column < WIDTH; column++)
                printf("%s%d%s", column == 0 ? "out=" : ",", opened[row * WIDTH + column],
                       column == WIDTH - 1 ? "\n" : "");
        number = diilvak_trace(WIDTH, HEIGHT, plate, PIXELS, LENGTH, GAPS, DIRECTIONS, MODE, ENDS,
                               AT, path, LENGTH, work, work_len, &direction, &level);
    }
    free(work);
    if (number != DIILVAK_DONE)
        return refused(number, 0);

    printf("way=%zu\nlevel=%d\n", direction, level);
    for (int i = 0; i < LENGTH; i++)
        printf("%s%zu", i == 0 ? "path=" : ",", path[i]);
    printf("\n");
    return EXIT_SUCCESS;
}
