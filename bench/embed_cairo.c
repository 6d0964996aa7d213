/* Times cairo drawing the pages of embed.c: each frame from scratch, and one replaced item inside a clip, the items that
 * lie outside of it left out; and a copy of the frame's bytes. The least of many.
 *
 * gcc -O2 bench/embed_cairo.c $(pkg-config --cflags --libs cairo) -o build/embed_cairo && build/embed_cairo
 */
#include <cairo.h>
#include <stdint.h>
#include <stdio.h>
#include <string.h>
#include <time.h>

enum { WIDTH = 1024, HEIGHT = 768, RECTS = 250, BITMAPS = 180, SIDE = 128 };

static double now(void) {
  struct timespec t;
  clock_gettime(CLOCK_MONOTONIC, &t);
  return (double)t.tv_sec * 1e3 + (double)t.tv_nsec / 1e6;
}

static void background(cairo_t *c) {
  cairo_set_source_rgb(c, 1, 1, 1);
  cairo_paint(c);
}

/* The rows of the frame that are drawn; items outside of them are left out. */
static int first_row = 0, end_row = HEIGHT;

static void rects(cairo_t *c, int offset) {
  background(c);
  for (int i = 0; i < RECTS; i++) {
    const int y = 36 * i - offset;
    if (y + 30 <= first_row || y >= end_row) continue;
    cairo_set_source_rgb(c, (i % 200) / 255.0, 100 / 255.0, 120 / 255.0);
    cairo_rectangle(c, (i % 7) * 40, y, 700, 30);
    cairo_fill(c);
  }
}

static cairo_surface_t *bitmap[BITMAPS];

static void bitmaps(cairo_t *c, int offset) {
  background(c);
  for (int i = 0; i < BITMAPS; i++) {
    const int y = SIDE * (i / 8) - offset;
    if (y + SIDE <= first_row || y >= end_row) continue;
    cairo_set_source_surface(c, bitmap[i], SIDE * (i % 8), y);
    cairo_paint(c);
  }
}

static void times(const char *name, cairo_t *c, void (*page)(cairo_t *, int), int step) {
  double least = 1e9;
  for (int turn = 0; turn < 300; turn++) {
    const double from = now();
    page(c, step * turn);
    cairo_surface_flush(cairo_get_target(c));
    const double took = now() - from;
    if (took < least) least = took;
  }
  printf("%-44s %9.4f ms\n", name, least);
}

/* Some columns and rows of the page alone. */
static void times_in(const char *name, cairo_t *c, void (*page)(cairo_t *, int), int x, int y, int w, int h) {
  cairo_save(c);
  cairo_rectangle(c, x, y, w, h);
  cairo_clip(c);
  first_row = y;
  end_row = y + h;
  times(name, c, page, 0);
  first_row = 0;
  end_row = HEIGHT;
  cairo_restore(c);
}

/* Visible outside, so that the copy is made. */
uint8_t pixels[4 * WIDTH * HEIGHT];

static void copy(cairo_t *c, int offset) {
  (void)offset;
  memcpy(pixels, cairo_image_surface_get_data(cairo_get_target(c)), sizeof pixels);
}

int main(void) {
  cairo_surface_t *surface = cairo_image_surface_create(CAIRO_FORMAT_ARGB32, WIDTH, HEIGHT);
  cairo_t *c = cairo_create(surface);
  cairo_set_antialias(c, CAIRO_ANTIALIAS_NONE);
  for (int i = 0; i < BITMAPS; i++) {
    bitmap[i] = cairo_image_surface_create(CAIRO_FORMAT_ARGB32, SIDE, SIDE);
    uint32_t *pixels = (uint32_t *)cairo_image_surface_get_data(bitmap[i]);
    for (int k = 0; k < SIDE * SIDE; k++)
      pixels[k] =
          0xff000000u | (uint32_t)((k + i) & 255) << 16 | (uint32_t)(k / SIDE * 2) << 8 | (uint32_t)(i * 37 & 255);
    cairo_surface_mark_dirty(bitmap[i]);
  }
  times("cairo, 250 rects", c, rects, 3);
  times_in("cairo, 250 rects, one replaced", c, rects, 100, 100, 700, 31);
  times("cairo, 180 bitmaps", c, bitmaps, 3);
  times_in("cairo, 180 bitmaps, one replaced", c, bitmaps, 3 * SIDE, 0, SIDE, SIDE);
  times("copy of the frame", c, copy, 0);
  return 0;
}
