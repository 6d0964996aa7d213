/* Plays a page through the library while its allocations are refused: the Nth alone, and all from the Nth on until
 * a call tells that memory ran out, for each N. The call has to leave all as it was, the same call has to succeed
 * once memory is there again, and the picture has to be that of a run without refusals. Prints how many were
 * refused.
 *
 * Linked with -Wl,--wrap=malloc -Wl,--wrap=realloc: the library's allocations come to the functions below.
 */
#include "cc.h"
#include <stdio.h>
#include <stdlib.h>
#include <string.h>

enum { WIDTH = 90, HEIGHT = 70, STEPS = 70 };

static long left = -1, refused, on_from; /* allocations until one is refused; -1: none is */

void *__real_malloc(size_t bytes);
void *__real_realloc(void *block, size_t bytes);
void *__wrap_malloc(size_t bytes);
void *__wrap_realloc(void *block, size_t bytes);

static int refuses(void) {
  if (left < 0) return 0;
  if (left > 0) {
    left--;
    return 0;
  }
  refused++;
  if (!on_from) left = -1;
  return 1;
}

void *__wrap_malloc(size_t bytes) { return refuses() ? NULL : __real_malloc(bytes); }
void *__wrap_realloc(void *block, size_t bytes) { return refuses() ? NULL : __real_realloc(block, bytes); }

static void stop(const char *what, long n) {
  fprintf(stderr, "refuse: %s, allocation %ld\n", what, n);
  exit(1);
}

static uint8_t icon[16 * 16 * 4];

/* One step of the page; the same whenever it is played. */
static uint32_t play(cc_compositor *page, int step) {
  uint32_t layer;
  const int turn = step - 8;
  switch (step) {
    case 0: return cc_add_scroller(page, 1, 0, 50, 300, NULL);
    case 1: return cc_add_transform(page, 1, 0, 3, 4, 1, NULL);
    case 2: return cc_add_clip(page, 1, 0, 0, 2, 2, 80, 60, NULL);
    case 3: return cc_add_effect(page, 1, 0, 140, NULL);
    case 4: return cc_add_layer(page, 1, 0, 1, 1, 0, 120, 300, 0, NULL);
    case 5: return cc_add_layer(page, 2, 1, 1, 0, 1, 60, 60, 0, NULL);
    case 6: return cc_insert_rect(page, 2, 0, 5, 5, 40, 40, 0x40800080, NULL);
    case 7: return cc_insert_bitmap(page, 2, 1, 20, 20, 16, 16, icon, sizeof icon, NULL);
    default: break;
  }
  if (turn < 20)
    return cc_insert_rect(page, 1, turn, 0, 15 * turn, 120, 15, (uint32_t)(0x10101000 * (turn % 8)) | 0xff, NULL);
  switch (turn % 7) {
    case 0: return cc_commit(page);
    case 1: return cc_draw(page, NULL, NULL);
    case 2: return cc_wheel(page, 30, 30, 3, 17, NULL, NULL);
    case 3: return cc_target(page, 30, 30, &layer);
    case 4: return cc_scroll(page, 1, 1, 5, NULL, NULL);
    case 5: return cc_set_opacity(page, 1, 100 + turn, NULL);
    default: return cc_replace_rect(page, 1, turn % 20, 0, 15 * (turn % 20), 100, 15, 0x8040c0ff, NULL);
  }
}

/* What can be seen of a compositor without memory. */
static void look(cc_compositor *page, int32_t seen[3]) {
  uint32_t changed;
  if (cc_offset(page, 1, &seen[0], &seen[1]) || cc_is_changed(page, &changed)) exit(1);
  seen[2] = (int32_t)changed;
}

/* The picture of the page, played with the Nth allocation refused. */
static void run(long n, int rest, uint8_t *pixels) {
  cc_compositor made = CC_EMPTY, *page = &made;
  left = n;
  on_from = rest;
  uint32_t status = cc_new(page, WIDTH, HEIGHT, 16, 0xffffffff, 4096);
  if (status == CC_MEMORY) {
    left = -1;
    status = cc_new(page, WIDTH, HEIGHT, 16, 0xffffffff, 4096);
  }
  if (status != CC_DONE) stop("cc_new", n);
  for (int step = 0; step < STEPS; step++) {
    int32_t before[3], after[3];
    look(page, before);
    status = play(page, step);
    if (status == CC_MEMORY) {
      look(page, after);
      if (memcmp(before, after, sizeof before)) stop("a call without memory changed something", n);
      left = -1;
      status = play(page, step);
    }
    if (status != CC_DONE) stop(cc_status_text(status), n);
  }
  left = -1;
  if (cc_commit(page) || cc_draw(page, NULL, NULL)) stop("the last draw", n);
  if (cc_copy(page, CC_RGBA, 0, HEIGHT, 4 * WIDTH, pixels, 4 * WIDTH * HEIGHT)) stop("the copy", n);
  cc_free(page);
}

int main(void) {
  static uint8_t wanted[4 * WIDTH * HEIGHT], got[4 * WIDTH * HEIGHT];
  for (int i = 0; i < 16 * 16; i++) {
    icon[4 * i] = (uint8_t)(i / 2);
    icon[4 * i + 3] = 200;
  }
  run(-1, 0, wanted);
  long n = 0;
  for (int rest = 0; rest < 2; rest++)
    for (n = 0;; n++) {
      const long before = refused;
      run(n, rest, got);
      if (refused == before) break;
      if (memcmp(wanted, got, sizeof wanted)) stop("another picture", n);
    }
  printf("%ld allocations, %ld refusals\n", n, refused);
  return 0;
}
