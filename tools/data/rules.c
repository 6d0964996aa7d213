/* Tries what the header of the library says of empty handles, null pointers, statuses that mean an error, and buffers: prints
 * nothing and ends with 0 where all holds, else names the first rule that does not and ends with 1.
 */
#include "cc.h"
#include <stdio.h>
#include <stdlib.h>
#include <string.h>

enum { WIDTH = 70, HEIGHT = 50, GAP = 12, STRIDE = 4 * WIDTH + GAP, FILL = 0x5a };

static void rule(int holds, const char *what) {
  if (holds) return;
  fprintf(stderr, "rules: %s\n", what);
  exit(1);
}

static void make_one_layer(cc_compositor *page) {
  rule(cc_new(page, WIDTH, HEIGHT, 16, 0xffffffff, 0) == CC_DONE, "a compositor is made");
  rule(cc_add_scroller(page, 1, 0, 10, 40, NULL) == CC_DONE, "a scroller is added");
  rule(cc_add_transform(page, 1, 0, 0, 0, 1, NULL) == CC_DONE, "a transform is added");
  rule(cc_add_layer(page, 1, 0, 1, 0, 0, 80, 90, 0, NULL) == CC_DONE, "a layer is added");
  rule(cc_insert_rect(page, 1, 0, 5, 5, 60, 70, 0x204060ff, NULL) == CC_DONE, "a rect is inserted");
}

static void errors(cc_compositor *page) {
  cc_compositor none = CC_EMPTY;
  cc_fault fault = {70, 71, 72, 73};
  int32_t x = 77, y = 78;
  uint32_t w = 0, h = 0;
  rule(cc_new(&none, 0, HEIGHT, 16, 0xffffffff, 0) == CC_BAD && !none.at, "a view of no width gives no compositor");
  rule(cc_new(&none, WIDTH, HEIGHT, 16, 0xff000010, 0) == CC_BAD && !none.at, "red above alpha gives no compositor");
  rule(cc_new(page, WIDTH, HEIGHT, 16, 0xffffffff, 0) == CC_TAKEN && page->at, "a handle holds one compositor");
  rule(cc_reset(page, WIDTH, 2049, 16) == CC_BAD, "a view that is too high is none");
  rule(cc_wheel(page, 9, 9, 0, 1048577, &x, &y) == CC_BAD && fault.why == 70, "no other call tells a fault");
  rule(cc_insert_rect(page, 2, 0, 0, 0, 9, 9, 0, &fault) == CC_REFUSED, "a layer that is not there is refused");
  rule(fault.why == CC_UNKNOWN_ID, "the fault of a command that is refused is told");
  rule(cc_insert_rect(page, 2, 0, 0, 0, 9, 9, 0, NULL) == CC_REFUSED, "a fault may be left out");
  rule(cc_scroll(page, 2, 0, 9, &x, &y) == CC_UNKNOWN && x == 77 && y == 78, "CC_UNKNOWN tells no move");
  rule(cc_wheel(page, 9, 9, 0, 1048577, &x, &y) == CC_BAD && x == 77 && y == 78, "CC_BAD tells no rest");
  rule(cc_size(page, &w, &h) == CC_DONE && w == WIDTH && h == HEIGHT, "the frame has the view's size from the first");
}

/* What an edit of wrong numbers tells. */
static void wrong_numbers(cc_compositor *page) {
  static const uint8_t pixels[4 * 4 * 4] = {0, 0, 0, 0, 9, 0, 0, 8};
  const int32_t few[] = {1, 2};
  cc_fault f = {0, 0, 0, 0};
  rule(cc_insert_rect(page, 1, -5, 0, 0, 9, 9, 0, &f) == CC_BAD && f.why == CC_BELOW_ZERO && f.field == 1 && f.value == -5,
       "a field below 0 is told");
  rule(cc_set_colour(page, 1, 0xff000080, &f) == CC_BAD && f.why == CC_NOT_PREMULTIPLIED, "red above alpha is told");
  rule(cc_edit(page, 99, few, 2, 0, NULL, 0, &f) == CC_BAD && f.why == CC_NO_COMMAND && f.value == 99,
       "a number without a command is told");
  rule(cc_edit(page, CC_SET_VIEW, few, 2, 0, NULL, 0, &f) == CC_BAD && f.why == CC_FIELD_COUNT && f.value == 2 && f.limit == 3,
       "a wrong count of fields is told");
  rule(cc_edit(page, CC_SET_VIEW, NULL, 0, 0, NULL, 0, &f) == CC_BAD && f.why == CC_FIELD_COUNT && f.value == 0,
       "no fields are taken as such");
  rule(cc_insert_bitmap(page, 1, 0, 0, 0, 257, 4, pixels, sizeof pixels, &f) == CC_BAD && f.why == CC_BITMAP_SIDE,
       "a bitmap that is too wide is told");
  rule(cc_insert_bitmap(page, 1, 0, 0, 0, 4, 4, pixels, 63, &f) == CC_BAD && f.why == CC_BITMAP_BYTES && f.value == 63 &&
           f.limit == 64,
       "a bitmap with too few bytes is told");
  rule(cc_insert_bitmap(page, 1, 0, 0, 0, 4, 4, pixels, 64, &f) == CC_BAD && f.why == CC_NOT_PREMULTIPLIED && f.value == 1,
       "a pixel that is not premultiplied is told");
  rule(cc_insert_bitmap(page, 1, -1, 0, 0, 4, 4, pixels, 64, &f) == CC_BAD && f.why == CC_BELOW_ZERO && f.field == 1,
       "a bitmap's place below 0 is told");
  rule(cc_insert_rect(page, 1, 0, 0, 0, 9, 9, 0xff000080, NULL) == CC_BAD, "a fault may be left out");
}

/* Every call of a handle that has no compositor: never made, freed, or none at all. */
static void empty(cc_compositor *page) {
  static uint8_t to[16];
  cc_rect rect = {0, 0, 0, 0};
  cc_fault fault = {70, 71, 72, 73};
  int32_t x = 7, y = 8;
  uint32_t n = 9, m = 10;
  size_t count = 11;
  cc_free(page);
  cc_free(page);
  rule(cc_reset(page, 9, 9, 16) == CC_NONE && cc_commit(page) == CC_NONE && cc_trim(page) == CC_NONE, "no page is changed");
  rule(cc_add_effect(page, 1, 0, 9, &fault) == CC_NONE && fault.why == 70, "no command is applied");
  rule(cc_scroll(page, 1, 0, 9, &x, &y) == CC_NONE && cc_wheel(page, 1, 1, 0, 9, &x, &y) == CC_NONE, "nothing scrolls");
  rule(cc_offset(page, 1, &x, &y) == CC_NONE && cc_target(page, 1, 1, &n) == CC_NONE, "nothing is asked");
  rule(cc_is_changed(page, &n) == CC_NONE && cc_draw(page, &n, &m) == CC_NONE, "nothing is drawn");
  rule(cc_damage(page, &rect, 1, &count) == CC_NONE && cc_size(page, &n, &m) == CC_NONE, "there is no frame");
  rule(cc_copy(page, CC_RGBA, 0, 1, 4, to, sizeof to) == CC_NONE, "nothing is copied");
  rule(x == 7 && y == 8 && n == 9 && m == 10 && count == 11 && !rect.w && !to[3], "nothing is told of no compositor");
}

/* Null pointers where none may be. */
static void nulls(cc_compositor *page) {
  int32_t x;
  uint32_t n;
  size_t count = 0;
  rule(cc_offset(page, 1, NULL, &x) == CC_BAD && cc_offset(page, 1, &x, NULL) == CC_BAD, "an offset wants two places");
  rule(cc_target(page, 1, 1, NULL) == CC_BAD && cc_is_changed(page, NULL) == CC_BAD, "an answer wants a place");
  rule(cc_size(page, NULL, &n) == CC_BAD && cc_size(page, &n, NULL) == CC_BAD, "a size wants two places");
  rule(cc_damage(page, NULL, 9, NULL) == CC_BAD && cc_damage(page, NULL, 9, &count) == CC_DONE, "rects may be left out");
  rule(cc_copy(page, CC_RGBA, 0, 1, 4 * WIDTH, NULL, 0) == CC_BAD, "rows want a buffer");
  rule(cc_edit(page, CC_SET_VIEW, NULL, 3, 0, NULL, 0, NULL) == CC_BAD, "fields may not be null");
  rule(cc_insert_bitmap(page, 1, 0, 0, 0, 4, 4, NULL, 64, NULL) == CC_BAD, "pixels may not be null");
}

static void scrolls(cc_compositor *page) {
  int32_t x = 0, y = 0;
  rule(cc_commit(page) == CC_DONE, "a commit is made");
  rule(cc_scroll(page, 1, 3, 25, &x, &y) == CC_DONE && x == 3 && y == 25, "a scroll tells how far");
  rule(cc_scroll(page, 1, 3, 25, &x, NULL) == CC_DONE && x == 3, "a scroll may tell one axis");
  rule(cc_offset(page, 1, &x, &y) == CC_DONE && x == 6 && y == 40, "a scroller stands at the end of its range");
  rule(cc_wheel(page, 9, 9, 9, 5, &x, &y) == CC_DONE && x == 5 && y == 5, "a wheel tells what is left");
}

/* The bytes of a pixel in a buffer, and whether those between rows stayed. */
static void copies(cc_compositor *page) {
  static uint8_t to[STRIDE * HEIGHT], before[STRIDE * HEIGHT];
  uint32_t top = 9, bottom = 3, changed = 9;
  size_t count = 9;
  cc_rect rect = {0, 0, 0, 0};
  memset(to, FILL, sizeof to);
  memcpy(before, to, sizeof to);
  rule(cc_copy(page, CC_RGBA, 0, HEIGHT, STRIDE, to, sizeof to) == CC_DONE && to[0] == 0 && to[3] == 255,
       "the frame is black and opaque before the first draw");
  rule(cc_draw(page, &top, &bottom) == CC_DONE && top == 0 && bottom == HEIGHT, "the first draw tells all rows");
  rule(cc_damage(page, &rect, 1, &count) == CC_DONE && count == 1 && rect.w == WIDTH, "its damage is the frame");
  memcpy(to, before, sizeof to);
  const size_t least = STRIDE * (HEIGHT - 1) + 4 * WIDTH;
  rule(cc_copy(page, CC_RGBA, 0, HEIGHT, STRIDE, to, least - 1) == CC_SHORT, "a byte too few is CC_SHORT");
  rule(cc_copy(page, CC_RGBA, 0, HEIGHT, 4 * WIDTH - 1, to, sizeof to) == CC_SHORT, "a short stride is CC_SHORT");
  rule(cc_copy(page, CC_RGBA, 0, HEIGHT + 1, 0, to, sizeof to) == CC_SHORT, "a row that is missing is CC_SHORT");
  rule(cc_copy(page, 2, 0, HEIGHT, STRIDE, to, sizeof to) == CC_BAD, "there are two orders");
  rule(cc_copy(page, CC_RGBA, 2, 1, STRIDE, to, sizeof to) == CC_BAD, "the first row does not lie below the last");
  rule(cc_copy(page, CC_RGBA, 1, 1, STRIDE, to, 0) == CC_DONE, "no rows may be copied");
  rule(!memcmp(to, before, sizeof to), "CC_SHORT and CC_BAD write nothing");
  rule(cc_copy(page, CC_BGRA, top, bottom, STRIDE, to, least) == CC_DONE, "rows of a draw are taken as they are");
  for (int y = 0; y < HEIGHT; y++)
    for (int i = 4 * WIDTH; i < STRIDE; i++) rule(to[STRIDE * y + i] == FILL, "bytes between rows stay");
  rule(to[0] == 0x60 && to[1] == 0x40 && to[2] == 0x20 && to[3] == 255, "blue, green, red, alpha");
  rule(cc_draw(page, &top, &bottom) == CC_DONE && top == bottom, "then nothing is drawn");
  rule(cc_damage(page, &rect, 1, &count) == CC_DONE && !count, "and nothing is damaged");
  rule(cc_draw(page, NULL, NULL) == CC_DONE, "rows may be left out");
  rule(cc_is_changed(page, &changed) == CC_DONE && !changed, "a frame that was drawn is not changed");
  rule(cc_trim(page) == CC_DONE && cc_is_changed(page, &changed) == CC_DONE && !changed, "a trim changes nothing");
}

int main(void) {
  cc_compositor made = CC_EMPTY, *page = &made;
  empty(NULL);
  empty(page);
  make_one_layer(page);
  errors(page);
  wrong_numbers(page);
  nulls(page);
  scrolls(page);
  copies(page);
  empty(page);
  return 0;
}
