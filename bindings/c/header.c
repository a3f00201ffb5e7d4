/* Holds thermal.h to the library: the sizes of its structs, and one call of each function, so that
 * each links and all values cross as they are declared. It is compiled as C and as C++. */
#include <stdio.h>
#include <string.h>

#include "thermal.h"

static int failed = 0;

static void expect(bool holds, const char *what) {
    if (!holds) {
        printf("not as declared: %s\n", what);
        failed++;
    }
}

static thermal_rgba rgba(uint8_t r, uint8_t g, uint8_t b, uint8_t a) {
    thermal_rgba color;
    color.r = r;
    color.g = g;
    color.b = b;
    color.a = a;
    return color;
}

static bool same(thermal_rgba color, uint8_t r, uint8_t g, uint8_t b, uint8_t a) {
    return color.r == r && color.g == g && color.b == b && color.a == a;
}

/* Whether a canvas of these sizes is answered, with the growth and the paper of a new one. */
static bool canvas(thermal_answer answer, uint32_t width, uint32_t height) {
    return answer.number == THERMAL_DONE && answer.image.width == width &&
           answer.image.height == height && answer.image.auto_grow &&
           same(answer.image.paper_color, 255, 255, 255, 255);
}

static void sizes(void) {
    expect(sizeof(thermal_rgba) == 4, "thermal_rgba");
    expect(sizeof(thermal_render_colors) == 16, "thermal_render_colors");
    expect(sizeof(thermal_image) == 16, "thermal_image");
    expect(sizeof(thermal_answer) == 20, "thermal_answer");
    expect(sizeof(thermal_copied) == 12, "thermal_copied");
    expect(sizeof(thermal_rgb) == 28, "thermal_rgb");
    expect(sizeof(thermal_decoded) == 12, "thermal_decoded");
    expect(sizeof(thermal_dropped) == 8, "thermal_dropped");
    expect(sizeof(thermal_ran) == 544 && offsetof(thermal_ran, image) == 4 &&
               offsetof(thermal_ran, dropped_count) == 24 && offsetof(thermal_ran, dropped) == 32,
           "thermal_ran");
    expect(sizeof(thermal_entry) == 40 && offsetof(thermal_entry, color) == 4 &&
               offsetof(thermal_entry, x) == 8 && offsetof(thermal_entry, start) == 32,
           "thermal_entry");
    expect(sizeof(thermal_plan) == 3104 && offsetof(thermal_plan, count) == 16 &&
               offsetof(thermal_plan, entries) == 24 &&
               offsetof(thermal_plan, dropped_count) == 2584 &&
               offsetof(thermal_plan, dropped) == 2592,
           "thermal_plan");
    expect(sizeof(thermal_translated) == 3112 && offsetof(thermal_translated, plan) == 8,
           "thermal_translated");
    expect(sizeof(thermal_row_answer) == 8, "thermal_row_answer");
}

static void colours(void) {
    thermal_rgba white = rgba(255, 255, 255, 255);
    thermal_render_colors colors;
    uint8_t dots[9] = {255, 255, 255, 255, 200, 200, 200, 255, 9};
    colors.paper_color = rgba(1, 2, 3, 4);
    colors.color_1 = rgba(11, 12, 13, 14);
    colors.color_2 = rgba(21, 22, 23, 24);
    colors.color_3 = rgba(31, 32, 33, 34);
    expect(same(thermal_with_alpha(rgba(10, 20, 30, 255), 7), 10, 20, 20, 7), "thermal_with_alpha");
    expect(same(thermal_blend_foreground(white, rgba(0, 0, 0, 128)), 127, 127, 127, 255),
           "thermal_blend_foreground");
    expect(same(thermal_blend_foreground_with_alpha(rgba(10, 0, 0, 9), rgba(20, 0, 0, 1), 100), 14,
                0, 0, 9),
           "thermal_blend_foreground_with_alpha");
    expect(same(thermal_multiply_foreground(rgba(200, 255, 0, 7), rgba(100, 1, 9, 255)), 78, 1, 0,
                7),
           "thermal_multiply_foreground");
    expect(same(thermal_color_for_number(colors, 0), 1, 2, 3, 4) &&
               same(thermal_color_for_number(colors, 51), 31, 32, 33, 34),
           "thermal_color_for_number");
    thermal_draw_dots(dots, sizeof dots, rgba(100, 100, 100, 255), true);
    expect(dots[0] == 100 && dots[3] == 255 && dots[4] == 78 && dots[8] == 9, "thermal_draw_dots");
}

static void decoders(void) {
    const uint8_t bits[2] = {0xa0, 0x40};
    const uint8_t layers[4] = {1, 0x80, 2, 0x40};
    thermal_rgba ink = rgba(1, 2, 3, 4);
    thermal_render_colors colors = {{0, 0, 0, 0}, {1, 1, 1, 1}, {2, 2, 2, 2}, {3, 3, 3, 3}};
    uint8_t out[128];
    thermal_decoded raster =
        thermal_image_from_raster_bytes_single_color(3, 2, 1, 2, ink, bits, 2, true, out, 128);
    expect(raster.number == THERMAL_DONE && raster.w == 3 && raster.h == 4 && out[3] == 255 &&
               out[7] == 0 && out[8] == 1 && out[9] == 2 && out[10] == 2,
           "thermal_image_from_raster_bytes_single_color");
    thermal_decoded column =
        thermal_image_from_column_bytes_single_color(2, 3, 0, 0, ink, bits, 2, out, 23);
    expect(column.number == THERMAL_NO_ROOM && column.w == 0 && column.h == 0,
           "thermal_image_from_column_bytes_single_color");
    thermal_decoded layered = thermal_image_from_raster_bytes_multi_color(
        8, 1, 1, 1, 2, colors, layers, 4, true, out, 128);
    expect(layered.number == THERMAL_DONE && layered.w == 8 && layered.h == 1 && out[0] == 1 &&
               out[3] == 255 && out[4] == 2 && out[7] == 255 && out[11] == 0,
           "thermal_image_from_raster_bytes_multi_color");
}

static void canvases(void) {
    uint8_t buf[400];
    uint8_t out[400];
    thermal_image image = thermal_new(3).image;
    expect(canvas(thermal_new(3), 3, 0) && thermal_new(16385).number == THERMAL_TOO_LARGE &&
               !thermal_new(16385).image.auto_grow,
           "thermal_new");
    expect(canvas(thermal_expand_to_height(image, 2, buf, sizeof buf), 3, 2),
           "thermal_expand_to_height");
    image.height = 2;
    expect(thermal_get_height(image) == 2, "thermal_get_height");
    expect(canvas(thermal_add_top_margin(image, 1, buf, sizeof buf), 3, 3),
           "thermal_add_top_margin");
    expect(canvas(thermal_expand_to_width(image, 5, buf, sizeof buf), 5, 2),
           "thermal_expand_to_width");
    expect(canvas(thermal_set_width(image, 7, buf, sizeof buf), 7, 0), "thermal_set_width");
    expect(canvas(thermal_empty(image, buf, sizeof buf), 3, 0), "thermal_empty");
    expect(thermal_reset(image, buf, 23).number == THERMAL_BAD_CANVAS, "thermal_reset");
    memset(out, 0, sizeof out);
    thermal_copied copied = thermal_copy(image, buf, sizeof buf, out, 24);
    expect(copied.number == THERMAL_DONE && copied.width == 3 && copied.height == 2 &&
               out[23] == 255 && out[24] == 0,
           "thermal_copy");
    thermal_rgb rgb = thermal_consume_rgb_u8(image, buf, sizeof buf, out, 18);
    expect(rgb.number == THERMAL_DONE && rgb.image.width == 0 && rgb.image.height == 0 &&
               rgb.image.auto_grow && rgb.width == 3 && rgb.height == 2,
           "thermal_consume_rgb_u8");
    expect(canvas(thermal_rotate_90(image, buf, sizeof buf, out, 24), 2, 3), "thermal_rotate_90");
    expect(canvas(thermal_rotate_180(image, buf, sizeof buf, out, 24), 3, 2), "thermal_rotate_180");
    expect(canvas(thermal_rotate_270(image, buf, sizeof buf, out, 24), 2, 3), "thermal_rotate_270");
}

static void drawing(void) {
    const uint8_t pixel[4] = {0, 0, 0, 255};
    thermal_rgba black = rgba(0, 0, 0, 255);
    uint8_t buf[400];
    thermal_image image = thermal_new(4).image;
    expect(canvas(thermal_put_pixels(image, 1, 2, 1, 1, pixel, 4, true, buf, sizeof buf), 4, 3) &&
               buf[36] == 0 && buf[40] == 255,
           "thermal_put_pixels");
    expect(canvas(thermal_draw_rect(image, 3, 0, 2, 2, black, false, buf, sizeof buf), 4, 2) &&
               buf[8] == 255 && buf[12] == 0,
           "thermal_draw_rect");
    expect(canvas(thermal_put_rect(image, 0, 0, 2, 1, black, buf, sizeof buf), 4, 1) &&
               buf[0] == 0 && buf[8] == 255,
           "thermal_put_rect");
    expect(canvas(thermal_put_render_img(image, 0, 0, 1, 2, pixel, 4, true, buf, sizeof buf), 4,
                  2) &&
               buf[0] == 255 && buf[16] == 0,
           "thermal_put_render_img");
    expect(thermal_flip_pixels(image, 0, 0, 0, 1, buf, sizeof buf).number == THERMAL_EMPTY_AREA,
           "thermal_flip_pixels");
    expect(thermal_draw_border(2, 2, black, buf, 15) == THERMAL_NO_ROOM, "thermal_draw_border");
}

/* Document 01's job: paper 10 wide, an image, a rectangle that is cropped, a margin, and a rectangle
 * that is dropped. */
static const uint8_t job[] = {
    10, 0, 0, 0, 1, 0, 10, 0, 0, 0, 255, 255, 255, 255,
    27, 0, 0, 0, 3, 0, 0, 0, 0, 0, 0, 0, 0, 0, 3, 0, 0, 0, 2, 0, 0, 0,
    2, 1, 0, 0, 0, 255, 1, 0xa0, 0x40,
    23, 0, 0, 0, 2, 0, 8, 0, 0, 0, 1, 0, 0, 0, 5, 0, 0, 0, 1, 0, 0, 0, 0, 0, 0, 255, 1,
    6, 0, 0, 0, 4, 0, 1, 0, 0, 0,
    23, 0, 0, 0, 2, 0, 10, 0, 0, 0, 0, 0, 0, 0, 1, 0, 0, 0, 1, 0, 0, 0, 0, 0, 0, 255, 1};

static bool dropped(size_t count, const thermal_dropped *list) {
    return count == 1 && list[0].place == 3 && list[0].reason == THERMAL_OFF_PAPER &&
           list[1].place == 0 && list[1].reason == 0 && list[63].reason == 0;
}

static bool entry(thermal_entry e, uint8_t kind, uint32_t x, uint32_t y, uint32_t w, uint32_t h) {
    return e.kind == kind && e.mode == THERMAL_MULTIPLY && same(e.color, 0, 0, 0, 255) &&
           e.x == x && e.y == y && e.w == w && e.h == h;
}

static void jobs(void) {
    uint8_t buf[121];
    uint8_t line[41];
    memset(buf, 9, sizeof buf);
    memset(line, 9, sizeof line);
    thermal_ran ran = thermal_run(job, sizeof job, buf, 119);
    expect(ran.number == THERMAL_NO_ROOM && ran.image.width == 0 && ran.dropped_count == 0 &&
               buf[0] == 9,
           "thermal_run");
    ran = thermal_run(job, sizeof job, buf, 120);
    expect(ran.number == THERMAL_DONE && ran.image.width == 10 && ran.image.height == 3 &&
               ran.image.auto_grow && same(ran.image.paper_color, 255, 255, 255, 255) &&
               dropped(ran.dropped_count, ran.dropped) && buf[0] == 255 && buf[40] == 0 &&
               buf[48] == 255 && buf[116] == 0 && buf[120] == 9,
           "thermal_run");
    thermal_translated translated = thermal_translate(job, sizeof job);
    thermal_plan plan = translated.plan;
    expect(translated.number == THERMAL_DONE && plan.width == 10 && plan.height == 3 &&
               same(plan.paper_color, 255, 255, 255, 255) && plan.count == 2 &&
               entry(plan.entries[0], THERMAL_IMAGE, 0, 1, 6, 2) &&
               plan.entries[0].stretch_x == 2 && plan.entries[0].stretch_y == 1 &&
               plan.entries[0].original_width == 3 && plan.entries[0].original_height == 2 &&
               plan.entries[0].start == 43 &&
               entry(plan.entries[1], THERMAL_RECTANGLE, 8, 2, 2, 1) &&
               plan.entries[1].start == 0 && plan.entries[2].kind == 0 &&
               dropped(plan.dropped_count, plan.dropped),
           "thermal_translate");
    expect(thermal_translate(job, sizeof job - 1).number == THERMAL_BAD_JOB, "thermal_translate");
    thermal_row_answer answer = thermal_row(plan, 2, job, sizeof job, line, 40);
    expect(answer.number == THERMAL_DONE && answer.ink == 4 && memcmp(line, buf + 80, 40) == 0 &&
               line[40] == 9,
           "thermal_row");
    answer = thermal_row(plan, 3, job, sizeof job, line, 40);
    expect(answer.number == THERMAL_NO_ROW && answer.ink == 0, "thermal_row");
    buf[0] = 9;
    expect(thermal_rows(plan, 1, 2, job, sizeof job, buf, 81) == THERMAL_DONE &&
               buf[0] == 0 && memcmp(buf + 40, line, 40) == 0 && buf[80] == 255,
           "thermal_rows");
    buf[0] = 9;
    expect(thermal_rows(plan, 2, 2, job, sizeof job, buf, 80) == THERMAL_NO_ROW &&
               thermal_rows(plan, 1, 2, job, sizeof job, buf, 79) == THERMAL_NO_ROOM &&
               buf[0] == 9,
           "thermal_rows");
    plan.entries[0].start = sizeof job - 1;
    expect(thermal_row(plan, 2, job, sizeof job, line, 40).number == THERMAL_BAD_PLAN,
           "thermal_row");
    expect(thermal_rows(plan, 1, 2, job, sizeof job, buf, 80) == THERMAL_BAD_PLAN && buf[0] == 9,
           "thermal_rows");
}

int main(void) {
    sizes();
    colours();
    decoders();
    canvases();
    drawing();
    jobs();
    return failed != 0;
}
