/* Counts the images of tiles that draws make, as large allocations: those that a draw did not use are kept up to the
 * budget, and no longer than cc_trim; those that it used are kept over any budget. Prints nothing and ends with 0 where all
 * holds, else names what does not and ends with 1.
 *
 * Linked with -Wl,--wrap=malloc -Wl,--wrap=realloc: the library's allocations come to the functions below.
 */
#include "cc.h"
#include <stdio.h>
#include <stdlib.h>

/* Four tiles are seen at a time. */
enum { SIDE = 512, TILE = 256, IMAGE = 4 * TILE * TILE };

static int large; /* allocations of the size of an image */

void *__real_malloc(size_t bytes);
void *__real_realloc(void *block, size_t bytes);
void *__wrap_malloc(size_t bytes);
void *__wrap_realloc(void *block, size_t bytes);

void *__wrap_malloc(size_t bytes) {
  large += bytes == IMAGE;
  return __real_malloc(bytes);
}

void *__wrap_realloc(void *block, size_t bytes) {
  large += bytes == IMAGE;
  return __real_realloc(block, bytes);
}

static void rule(int holds, const char *what) {
  if (holds) return;
  fprintf(stderr, "kept: %s\n", what);
  exit(1);
}

/* How many images a draw makes after a scroll. */
static int made(cc_compositor *page, int by) {
  large = 0;
  rule(cc_scroll(page, 1, 0, by, NULL, NULL) == CC_DONE && cc_draw(page, NULL, NULL) == CC_DONE, "a frame is drawn");
  return large;
}

/* A page of two views one below the other, all of bitmaps, so that each tile has an image of all its pixels. */
static void make(cc_compositor *page, size_t budget) {
  static uint8_t pixels[IMAGE];
  for (int i = 0; i < TILE * TILE; i++) {
    pixels[4 * i] = (uint8_t)(i % 251);
    pixels[4 * i + 1] = (uint8_t)(i % 241);
    pixels[4 * i + 3] = 255;
  }
  rule(cc_new(page, SIDE, SIDE, TILE, 0xffffffff, budget) == CC_DONE, "a compositor is made");
  rule(cc_add_scroller(page, 1, 0, 0, SIDE, NULL) == CC_DONE, "a scroller is added");
  rule(cc_add_transform(page, 1, 0, 0, 0, 1, NULL) == CC_DONE, "a transform is added");
  rule(cc_add_layer(page, 1, 0, 1, 0, 0, SIDE, 2 * SIDE, 0, NULL) == CC_DONE, "a layer is added");
  for (int i = 0; i < 8; i++)
    rule(cc_insert_bitmap(page, 1, i, TILE * (i % 2), TILE * (i / 2), TILE, TILE, pixels, sizeof pixels, NULL) == CC_DONE,
         "a bitmap is inserted");
  rule(cc_commit(page) == CC_DONE && cc_draw(page, NULL, NULL) == CC_DONE, "a page is drawn");
}

int main(void) {
  cc_compositor page = CC_EMPTY;
  make(&page, 4 * (size_t)IMAGE);
  rule(made(&page, SIDE) == 4, "four tiles come into view");
  rule(made(&page, -SIDE) == 0, "the budget keeps four tiles beside the four that are seen");
  rule(cc_trim(&page) == CC_DONE && made(&page, SIDE) == 4, "a trim keeps none of those that are not seen");
  cc_free(&page);
  make(&page, 4 * (size_t)IMAGE - 1);
  rule(made(&page, SIDE) == 4 && made(&page, -SIDE) == 4, "a byte less keeps none of four that were used at once");
  rule(cc_trim(&page) == CC_DONE && made(&page, 0) == 0, "those that are seen are kept over any budget");
  cc_free(&page);
  return 0;
}
