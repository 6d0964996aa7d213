/* Times the library at 1024 by 768: the least of many of a first draw, a scrolled frame, an unchanged frame, a
 * replaced item with its commit and draw, copies out and a hit test, for a layer of 250 rects and one of 180
 * bitmaps.
 *
 * gcc -O2 -Iinclude bench/embed.c build/libcc.a -o build/embed && build/embed
 */
#include "cc.h"
#include <stdio.h>
#include <stdlib.h>
#include <time.h>

enum { WIDTH = 1024, HEIGHT = 768, RECTS = 250, BITMAPS = 180, SIDE = 128 };

static double now(void) {
  struct timespec t;
  clock_gettime(CLOCK_MONOTONIC, &t);
  return (double)t.tv_sec * 1e3 + (double)t.tv_nsec / 1e6;
}

static void need(uint32_t status) {
  if (status == CC_DONE) return;
  fprintf(stderr, "%s\n", cc_status_text(status));
  exit(1);
}

static void make_page(cc_compositor *page, int height) {
  need(cc_new(page, WIDTH, HEIGHT, 256, 0xffffffff, 64 << 20));
  need(cc_add_scroller(page, 1, 0, 0, height - HEIGHT, NULL));
  need(cc_add_transform(page, 1, 0, 0, 0, 1, NULL));
  need(cc_add_layer(page, 1, 0, 1, 0, 0, WIDTH, height, 0, NULL));
}

static void make_rects(cc_compositor *page) {
  make_page(page, 9040);
  for (int i = 0; i < RECTS; i++)
    need(cc_insert_rect(page, 1, i, (i % 7) * 40, 36 * i, 700, 30, 0x6478ff | (uint32_t)(i % 200) << 24, NULL));
  need(cc_commit(page));
}

static void fill(uint8_t *pixels, int seed) {
  for (int i = 0; i < SIDE * SIDE; i++) {
    pixels[4 * i] = (uint8_t)(i + seed);
    pixels[4 * i + 1] = (uint8_t)(i / SIDE * 2);
    pixels[4 * i + 2] = (uint8_t)(seed * 37);
    pixels[4 * i + 3] = 255;
  }
}

static uint8_t bitmap[SIDE * SIDE * 4];

static void make_bitmaps(cc_compositor *page) {
  make_page(page, SIDE * (BITMAPS / 8 + 1));
  for (int i = 0; i < BITMAPS; i++) {
    fill(bitmap, i);
    need(cc_insert_bitmap(page, 1, i, SIDE * (i % 8), SIDE * (i / 8), SIDE, SIDE, bitmap, sizeof bitmap, NULL));
  }
  need(cc_commit(page));
}

/* The least time of some turns, and their mean. */
#define TIMES(name, count, work)                                            \
  do {                                                                      \
    double least = 1e9, sum = 0;                                            \
    for (int turn = 0; turn < (count); turn++) {                            \
      const double from = now();                                            \
      work;                                                                 \
      const double took = now() - from;                                     \
      sum += took;                                                          \
      if (took < least) least = took;                                       \
    }                                                                       \
    printf("  %-34s %9.4f ms  (mean %9.4f)\n", name, least, sum / (count)); \
  } while (0)

static void draws(cc_compositor *page) {
  static uint8_t pixels[WIDTH * HEIGHT * 4];
  uint32_t layer;
  TIMES("first draw", 1, need(cc_draw(page, NULL, NULL)));
  TIMES("scrolled frame", 300, {
    need(cc_scroll(page, 1, 0, 3, NULL, NULL));
    need(cc_draw(page, NULL, NULL));
  });
  TIMES("scrolled back", 300, {
    need(cc_scroll(page, 1, 0, -3, NULL, NULL));
    need(cc_draw(page, NULL, NULL));
  });
  TIMES("unchanged frame", 300, need(cc_draw(page, NULL, NULL)));
  TIMES("commit without commands", 300, need(cc_commit(page)));
  TIMES("moved by a command, commit, draw", 100, {
    need(cc_set_transform(page, 1, 0, turn % 2, NULL));
    need(cc_commit(page));
    need(cc_draw(page, NULL, NULL));
  });
  TIMES("copy out, RGBA", 100, need(cc_copy(page, CC_RGBA, 0, HEIGHT, 4 * WIDTH, pixels, sizeof pixels)));
  TIMES("copy out, BGRA", 100, need(cc_copy(page, CC_BGRA, 0, HEIGHT, 4 * WIDTH, pixels, sizeof pixels)));
  TIMES("hit test", 1000, need(cc_target(page, turn % WIDTH, 300, &layer)));
}

int main(void) {
  printf("250 rects:\n");
  cc_compositor made = CC_EMPTY, *page = &made;
  make_rects(page);
  draws(page);
  TIMES("one rect replaced, commit, draw", 100, {
    need(cc_replace_rect(page, 1, 3, 100, 100 + turn % 2, 700, 30, 0x20a040ff, NULL));
    need(cc_commit(page));
    need(cc_draw(page, NULL, NULL));
  });
  cc_free(page);
  printf("180 bitmaps of 128 by 128:\n");
  make_bitmaps(page);
  draws(page);
  TIMES("one bitmap replaced, commit, draw", 50, {
    fill(bitmap, turn);
    need(cc_replace_bitmap(page, 1, 3, SIDE * 3, 0, SIDE, SIDE, bitmap, sizeof bitmap, NULL));
    need(cc_commit(page));
    need(cc_draw(page, NULL, NULL));
  });
  cc_free(page);
  return 0;
}
