/* Decodes a mark, draws it on paper in a frame, and prints the paper as text. Then a damaged mark,
 * which is refused. From the top of the repository:
 *
 *     cc -Iinclude bindings/c/mark.c target/staticlib/libthermal.a -o mark && ./mark
 */
#include <stdio.h>

#include "thermal.h"

enum { PAPER = 28, ROWS = 24, SIDE = 8, STRETCH = 2 };

/* A signal on its post, a row of eight bits each. */
static const uint8_t mark[SIDE] = {0x3c, 0x66, 0x5a, 0x66, 0x3c, 0x18, 0x18, 0x7e};

static const thermal_rgba black = {0, 0, 0, 255};

/* The dots of the paper, and those of the decoded mark. */
static uint8_t paper[4 * PAPER * ROWS];
static uint8_t dots[4 * SIDE * STRETCH * SIDE * STRETCH];

static thermal_decoded decode(uint32_t width, uint32_t height, size_t data_length) {
    return thermal_image_from_raster_bytes_single_color(width, height, STRETCH, STRETCH, black,
                                                        mark, data_length, true, dots, sizeof dots);
}

/* The mark, and a band that goes past the paper's edge and is cropped there. */
static thermal_answer draw(void) {
    thermal_answer answer = thermal_new(PAPER);
    thermal_decoded image = decode(SIDE, SIDE, sizeof mark);
    if (image.number != THERMAL_DONE) {
        answer.number = image.number;
        return answer;
    }
    answer = thermal_put_render_img(answer.image, 4, 2, image.w, image.h, dots,
                                    (size_t)4 * image.w * image.h, false, paper, sizeof paper);
    if (answer.number != THERMAL_DONE) {
        return answer;
    }
    answer = thermal_draw_rect(answer.image, 22, 8, PAPER, 2, black, false, paper, sizeof paper);
    if (answer.number != THERMAL_DONE) {
        return answer;
    }
    answer = thermal_expand_to_height(answer.image, 20, paper, sizeof paper);
    if (answer.number != THERMAL_DONE) {
        return answer;
    }
    answer.number = thermal_draw_border(answer.image.width, answer.image.height, black, paper,
                                        sizeof paper);
    if (answer.number != THERMAL_DONE) {
        return answer;
    }
    return thermal_add_top_margin(answer.image, 1, paper, sizeof paper);
}

/* A dot is shown as ink where its red is below 128. */
static void print(thermal_image image) {
    for (uint32_t y = 0; y < image.height; y++) {
        for (uint32_t x = 0; x < image.width; x++) {
            size_t dot = (size_t)y * image.width + x;
            putchar(paper[4 * dot] < 128 ? '#' : '.');
        }
        putchar('\n');
    }
}

int main(void) {
    thermal_answer answer = draw();
    if (answer.number != THERMAL_DONE) {
        printf("refused %d\n", answer.number);
        return 1;
    }
    printf("%u by %u dots\n", (unsigned)answer.image.width, (unsigned)answer.image.height);
    print(answer.image);

    /* Its header announces 2^32 dots, and no data comes. */
    printf("a damaged mark is refused with %d\n", decode(512, 8388608, 0).number);
    return 0;
}
