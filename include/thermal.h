/*
 * thermal.h: the drawing core of a printer-strip renderer, for C and C++.
 *
 * The library is target/staticlib/libthermal.a, which `bindings/library` proves and writes. It is
 * for x86-64 and needs only the C library. Nothing here allocates, keeps state or stops.
 *
 * Numbers. An operation gives THERMAL_DONE or one of the refusals below. "Numbers:" lists those that
 * an operation can give, in the order in which they are tested: the first that applies is given.
 *
 * Refusals. A refused call writes to no buffer. It gives its number, the canvas record as it was
 * given (zero where none was), and zero in all else.
 *
 * Buffers. A buffer is lent for one call, as an address and a number of bytes. The address is not
 * null, also where there are no bytes. A buffer that is written to overlaps no other of that call.
 * What "writes" does not name keeps its bytes, also past the result.
 *
 * Dots. A pixel, or dot, is four bytes r, g, b, a. A picture is its dots row by row.
 *
 * The canvas. A `thermal_image` is a canvas but for its dots, which are the first 4*width*height
 * bytes of the buffer `buf`. Each operation takes the record by value and gives the next one; only
 * the caller keeps it. Between calls the caller may change `auto_grow` and `paper_color`, and write
 * dots to the buffer. Where a buffer is too short, the same bytes may be lent again in a longer one.
 *
 * Jobs. A job draws a whole strip: `thermal_run` draws it on a canvas; `thermal_translate` and
 * `thermal_row` give any row of it alone, without a canvas, and `thermal_rows` some rows at once.
 */
#ifndef THERMAL_H
#define THERMAL_H

#include <stdbool.h>
#include <stddef.h>
#include <stdint.h>

#ifdef __cplusplus
extern "C" {
#endif

/* The largest width and height. */
#define THERMAL_LIMIT 16384

/* The numbers that an operation can give. */
#define THERMAL_DONE 0
#define THERMAL_NO_ROOM 1 /* a lent output or canvas buffer is too short */
#define THERMAL_TOO_LARGE 2 /* a given or stretched side, or a new width, is above the limit */
#define THERMAL_WRONG_LENGTH 3 /* the data's length is not the one required */
#define THERMAL_NO_LAYERS 4 /* no colours and no data */
#define THERMAL_OFF_PAPER 5 /* x >= width; growth off and y >= height; a flip past the width */
#define THERMAL_TOO_MANY 6 /* more pixels than w*h */
#define THERMAL_SHORT 7 /* cropping would read a pixel that is not given */
#define THERMAL_TOO_TALL 8 /* the height that results or is asked for is above the limit */
#define THERMAL_BAD_CANVAS 9 /* a side above the limit, rows without a width, or a short buffer */
#define THERMAL_EMPTY_AREA 10 /* a flip or a border without width or height */
#define THERMAL_BAD_JOB 11 /* the bytes break the rules of jobs */
#define THERMAL_TOO_LONG 12 /* more than 64 commands */
#define THERMAL_NOT_TRANSLATED 13 /* a job to be translated holds a flip */
#define THERMAL_BAD_PLAN 14 /* a plan breaks the rules of plans */
#define THERMAL_NO_ROW 15 /* a row at or past the plan's height */
#define THERMAL_LAYER_SIZE 16 /* a later layer is wider or taller than the first */

/* A pixel: red, green, blue, and how opaque it is. */
typedef struct thermal_rgba {
    uint8_t r;
    uint8_t g;
    uint8_t b;
    uint8_t a;
} thermal_rgba;

/* The paper's colour and the three inks'. */
typedef struct thermal_render_colors {
    thermal_rgba paper_color;
    thermal_rgba color_1;
    thermal_rgba color_2;
    thermal_rgba color_3;
} thermal_render_colors;

/* A canvas but for its dots. Without `auto_grow` what begins below the last row cannot be put. */
typedef struct thermal_image {
    uint32_t width;
    uint32_t height;
    bool auto_grow;
    thermal_rgba paper_color;
} thermal_image;

/* The number, and the next canvas. */
typedef struct thermal_answer {
    uint8_t number;
    thermal_image image;
} thermal_answer;

/* The number, and the width and height of the dots that are written out. */
typedef struct thermal_copied {
    uint8_t number;
    uint32_t width;
    uint32_t height;
} thermal_copied;

/* The number, the next canvas, and the width and height of what is written out. */
typedef struct thermal_rgb {
    uint8_t number;
    thermal_image image;
    uint32_t width;
    uint32_t height;
} thermal_rgb;

/* The number, and the width and height of the decoded image, stretched. */
typedef struct thermal_decoded {
    uint8_t number;
    uint32_t w;
    uint32_t h;
} thermal_decoded;

/* The most commands of a job, and entries of a plan. */
#define THERMAL_MOST_COMMANDS 64

/* A command that is dropped: its place, which is 0 for the first after the paper, and its number. */
typedef struct thermal_dropped {
    uint32_t place;
    uint8_t reason;
} thermal_dropped;

/* What a run answers: the number, the canvas, and the dropped commands, which are the first
 * `dropped_count`. All other places are zero. */
typedef struct thermal_ran {
    uint8_t number;
    thermal_image image;
    size_t dropped_count;
    thermal_dropped dropped[THERMAL_MOST_COMMANDS];
} thermal_ran;

/* The kinds and the modes of an entry. */
#define THERMAL_RECTANGLE 2
#define THERMAL_IMAGE 3
#define THERMAL_BLEND 0
#define THERMAL_MULTIPLY 1

/* An entry of a plan: a rectangle or an image in its place, cropped. A rectangle has zero in the
 * factors, the original sizes and `start`; an image's bit rows stand in the job's bytes from `start`
 * on. */
typedef struct thermal_entry {
    uint8_t kind;
    uint8_t mode;
    uint8_t stretch_x;
    uint8_t stretch_y;
    thermal_rgba color;
    uint32_t x;
    uint32_t y;
    uint32_t w;
    uint32_t h;
    uint32_t original_width;
    uint32_t original_height;
    size_t start;
} thermal_entry;

/* A row plan. Its entries are the first `count`, and its dropped commands the first `dropped_count`;
 * all other places are zero. */
typedef struct thermal_plan {
    uint32_t width;
    uint32_t height;
    thermal_rgba paper_color;
    size_t count;
    thermal_entry entries[THERMAL_MOST_COMMANDS];
    size_t dropped_count;
    thermal_dropped dropped[THERMAL_MOST_COMMANDS];
} thermal_plan;

/* The number, and the plan of a job. */
typedef struct thermal_translated {
    uint8_t number;
    thermal_plan plan;
} thermal_translated;

/* The number, and how many of a row's dots have ink, which is red below 128. */
typedef struct thermal_row_answer {
    uint8_t number;
    uint32_t ink;
} thermal_row_answer;

/*
 * Colours. These refuse nothing, and all but the last write nothing.
 */

/* Answers the colour with another alpha: r, g, g, alpha. Blue takes green's value, as in the Rust. */
thermal_rgba thermal_with_alpha(thermal_rgba color, uint8_t alpha);

/* Answers the dot with the colour blended onto it, at the colour's own alpha. */
thermal_rgba thermal_blend_foreground(thermal_rgba dot, thermal_rgba color);

/* Answers the dot with the colour blended onto it at `alpha`, whatever the colour's own is. */
thermal_rgba thermal_blend_foreground_with_alpha(thermal_rgba dot, thermal_rgba color,
                                                 uint8_t alpha);

/* Answers the dot multiplied by the colour, so that white does not cover black. Alpha stays. */
thermal_rgba thermal_multiply_foreground(thermal_rgba dot, thermal_rgba color);

/* Answers the colour of a number: 0 the paper; 1 and 49, 2 and 50, 3 and 51 the inks; else ink 1. */
thermal_rgba thermal_color_for_number(thermal_render_colors colors, uint8_t number);

/* Writes every whole dot of `dots`, each with the colour blended onto it or, with `multiply`,
 * multiplied by it. One to three bytes that are left at the end stay. */
void thermal_draw_dots(uint8_t *dots, size_t length, thermal_rgba color, bool multiply);

/*
 * Decoding. A factor 0 counts as 1; each dot becomes a block of stretch_x by stretch_y.
 */

/* Answers the stretched sizes of an image that is given row by row: with `process_as_bits` in
 * ceil(width/8)*height bytes, top bit first, else in width*height alphas. Each dot is the colour
 * with that alpha, by thermal_with_alpha; a set bit is 255.
 * Writes the dots, 4*w*h bytes, from the start of `out` when done. `data` is only read.
 * Numbers: 2, 3, 1. */
thermal_decoded thermal_image_from_raster_bytes_single_color(
    uint32_t width, uint32_t height, uint8_t stretch_x, uint8_t stretch_y, thermal_rgba color,
    const uint8_t *data, size_t data_length, bool process_as_bits, uint8_t *out,
    size_t out_length);

/* Answers the same of bits that are given column by column, in width*ceil(height/8) bytes: dot
 * (x, y) is bit y of column x, top bit first.
 * Writes the dots, 4*w*h bytes, from the start of `out` when done. `data` is only read.
 * Numbers: 2, 3, 1. */
thermal_decoded thermal_image_from_column_bytes_single_color(
    uint32_t width, uint32_t height, uint8_t stretch_x, uint8_t stretch_y, thermal_rgba color,
    const uint8_t *data, size_t data_length, uint8_t *out, size_t out_length);

/* Answers the same of `num_colors` layers, each a colour byte and then its rows: as bits
 * floor(width/8)*height bytes, so that a width that is no whole number of bytes makes an image at
 * height 0 alone, else width*height alphas. The first layer is taken as it is, each later one is
 * blended onto it at its own alpha.
 * Writes the dots, 4*w*h bytes, from the start of `out` when done. `data` is only read.
 * Numbers: 2, 3, 4, 16, 1. */
thermal_decoded thermal_image_from_raster_bytes_multi_color(
    uint32_t width, uint32_t height, uint8_t stretch_x, uint8_t stretch_y, uint8_t num_colors,
    thermal_render_colors render_colors, const uint8_t *data, size_t data_length,
    bool process_as_bits, uint8_t *out, size_t out_length);

/*
 * The canvas.
 */

/* Answers an empty canvas of that width: no rows, growth on, white paper.
 * Writes nothing. Numbers: 2. */
thermal_answer thermal_new(uint32_t width);

/* Answers the height of a record, sound or not: 0 without a width. Writes and refuses nothing. */
uint32_t thermal_get_height(thermal_image image);

/* Answers the canvas with at least `height` rows; a canvas as tall as that, or without a width,
 * stays.
 * Writes the new rows, of paper, below the others when done. Numbers: 9, 8, 1. */
thermal_answer thermal_expand_to_height(thermal_image image, uint32_t height, uint8_t *buf,
                                        size_t length);

/* Answers the canvas with `height` more rows; without a width it stays.
 * Writes the rows of paper at the top and the old ones below them when done. Numbers: 9, 8, 1. */
thermal_answer thermal_add_top_margin(thermal_image image, uint32_t height, uint8_t *buf,
                                      size_t length);

/* Answers the canvas with at least `new_width` columns; one as wide as that stays.
 * Writes every row anew when the width grows: half of the new columns, rounded down, are paper at
 * the left, the others at the right. Numbers: 9, 2, 1. */
thermal_answer thermal_expand_to_width(thermal_image image, uint32_t new_width, uint8_t *buf,
                                       size_t length);

/* Answers the canvas with that width and no rows. Writes nothing. Numbers: 9, 2. */
thermal_answer thermal_set_width(thermal_image image, uint32_t width, const uint8_t *buf,
                                 size_t length);

/* Answers the canvas with no rows, as wide as it was. Writes nothing. Numbers: 9. */
thermal_answer thermal_empty(thermal_image image, const uint8_t *buf, size_t length);

/* The same as thermal_empty, by the Rust's other name. */
thermal_answer thermal_reset(thermal_image image, const uint8_t *buf, size_t length);

/* Answers the canvas's width and height.
 * Writes its dots, 4*width*height bytes, from the start of `out` when done. `buf` is only read.
 * Numbers: 9, 1. */
thermal_copied thermal_copy(thermal_image image, const uint8_t *buf, size_t length, uint8_t *out,
                            size_t out_length);

/* Answers the canvas's width and height, and as the next canvas one without width and height.
 * Writes r, g, b of each dot, 3*width*height bytes, from the start of `out` when done. `buf` is
 * only read. Numbers: 9, 1. */
thermal_rgb thermal_consume_rgb_u8(thermal_image image, const uint8_t *buf, size_t length,
                                   uint8_t *out, size_t out_length);

/* Answers the canvas turned by 90 degrees: dot (x, y) goes to column height-1-y, row x. Without
 * rows it has no width either.
 * Writes its dots, 4*width*height bytes, from the start of `out` when done: from then on `out` is
 * the canvas's buffer. `buf` is only read. Numbers: 9, 1. */
thermal_answer thermal_rotate_90(thermal_image image, const uint8_t *buf, size_t length,
                                 uint8_t *out, size_t out_length);

/* Answers the canvas turned by 180 degrees: dot (x, y) goes to column width-1-x, row height-1-y.
 * Writes as thermal_rotate_90 does. Numbers: 9, 1. */
thermal_answer thermal_rotate_180(thermal_image image, const uint8_t *buf, size_t length,
                                  uint8_t *out, size_t out_length);

/* Answers the canvas turned by 270 degrees: dot (x, y) goes to column y, row width-1-x. Without
 * rows it has no width either.
 * Writes as thermal_rotate_90 does. Numbers: 9, 1. */
thermal_answer thermal_rotate_270(thermal_image image, const uint8_t *buf, size_t length,
                                  uint8_t *out, size_t out_length);

/*
 * Drawing on the canvas. What is put is cropped where x + w is above the width, or growth is off and
 * y + w (its width, as in the Rust) is above the height: then to the canvas's width and, with growth
 * off, to its height. The canvas becomes as tall as what is put asks for, also where no dot is drawn
 * and where growth is off; new rows are paper.
 */

/* Answers the canvas with `pixels` put on it as an image w wide and h tall at (x, y). Fewer pixels
 * than w*h are accepted where it is not cropped, and only these are drawn.
 * Writes when done: the new rows, then the dots of the image, blended or, with `multiply`,
 * multiplied. `pixels` is only read. Numbers: 9, 3, 2, 6, 5, 7, 8, 1. */
thermal_answer thermal_put_pixels(thermal_image image, uint32_t x, uint32_t y, uint32_t w,
                                  uint32_t h, const uint8_t *pixels, size_t pixels_length,
                                  bool multiply, uint8_t *buf, size_t length);

/* Answers the canvas with a rectangle of one colour: a put of w*h equal pixels.
 * Writes as thermal_put_pixels does. Numbers: 9, 2, 5, 8, 1. */
thermal_answer thermal_draw_rect(thermal_image image, uint32_t x, uint32_t y, uint32_t w,
                                 uint32_t h, thermal_rgba color, bool multiply, uint8_t *buf,
                                 size_t length);

/* The same as thermal_draw_rect with `multiply`. */
thermal_answer thermal_put_rect(thermal_image image, uint32_t x, uint32_t y, uint32_t w, uint32_t h,
                                thermal_rgba color, uint8_t *buf, size_t length);

/* Answers the canvas with `pixels` multiplied onto it and, if it is upside down, has an area and
 * x + w is within the width, then flipped as by thermal_flip_pixels, at its full height h.
 * Writes as these two do, once both are known to be done. Numbers: 9, 3, 2, 6, 5, 7, 8, 1. */
thermal_answer thermal_put_render_img(thermal_image image, uint32_t x, uint32_t y, uint32_t w,
                                      uint32_t h, const uint8_t *pixels, size_t pixels_length,
                                      bool upside_down, uint8_t *buf, size_t length);

/* Answers the canvas with at least y + h rows and an area of it flipped top to bottom.
 * Writes when done: the new rows, then each dot of the area, blended with its mirror at the mirror's
 * alpha. All mirrors are read before a dot is written. Numbers: 9, 10, 5, 8, 1. */
thermal_answer thermal_flip_pixels(thermal_image image, uint32_t x, uint32_t y, uint32_t w,
                                   uint32_t h, uint8_t *buf, size_t length);

/* Answers the number alone. `buf` holds any picture w wide and h tall.
 * Writes its edges when done: top, bottom, left and right are blended with the colour one after the
 * other, so that a dot is blended once for each edge that it lies on. Numbers: 2, 10, 1. */
uint8_t thermal_draw_border(uint32_t w, uint32_t h, thermal_rgba color, uint8_t *buf,
                            size_t length);

/*
 * Jobs. A job is the bytes of a strip: records, little-endian, each a length u32 of what follows it, a
 * kind u16 and a body. The first is the paper, and only the first; the others are the commands. A
 * colour is four bytes r, g, b, a, and a mode is one byte, 0 to blend and 1 to multiply.
 *
 *     1 paper      width u32 (1 to THERMAL_LIMIT), colour
 *     2 rectangle  x, y, w, h u32, colour, mode
 *     3 image      x, y, w, h u32, stretch_x, stretch_y u8, colour, mode, rows of bits
 *     4 margin     rows u32, which are added at the top
 *     5 flip       x, y, w, h u32
 *
 * A command that would be refused with 2, 3, 5, 8 or 10 is dropped, and the others are drawn.
 */

/* Answers the canvas that a job draws, from one without rows, with growth on, and the dropped
 * commands.
 * Writes the canvas's dots, 4*width*height bytes, from the start of `buf` when done; the height is
 * known before a byte is written. `job` is only read. Numbers: 11, 12, 1. */
thermal_ran thermal_run(const uint8_t *job, size_t job_length, uint8_t *buf, size_t length);

/* Answers the row plan of a job without flips: one entry for each rectangle and image that is not
 * dropped, in order, also where it has no area.
 * Writes nothing. Numbers: 11, 12, 13. */
thermal_translated thermal_translate(const uint8_t *job, size_t job_length);

/* Answers how many dots of a plan's row have ink. `data` is the job that the plan is of, or any bytes
 * in which the plan's images have their rows.
 * Writes the row, 4*width bytes, from the start of `line` when done: paper, with the entries drawn in
 * order, as on the canvas of thermal_run. `data` is only read. Numbers: 14, 15, 1. */
thermal_row_answer thermal_row(thermal_plan plan, uint32_t row, const uint8_t *data,
                               size_t data_length, uint8_t *line, size_t length);

/* Answers the number alone, for `count` rows of a plan from row `first` on: the plan is judged once
 * for all of them, and their ink is not counted.
 * Writes the rows one after the other, 4*width*count bytes, from the start of `buf` when done, each as
 * thermal_row gives it. `data` is only read. Numbers: 14, 15 if first + count is
 * above the height, 1. */
uint8_t thermal_rows(thermal_plan plan, uint32_t first, uint32_t count, const uint8_t *data,
                     size_t data_length, uint8_t *buf, size_t length);

#ifdef __cplusplus
}
#endif

#endif
