/* A page with a header, a list that scrolls below it, and a card that is a group of two layers, half transparent.
 * It is drawn, scrolled, asked what lies under a point, and changed; each picture is left in a folder as a PPM
 * file, and each answer is printed.
 *
 * usage: demo FOLDER
 */
#include "cc.h"
#include <stdio.h>
#include <stdlib.h>

enum { WIDTH = 160, HEIGHT = 120 };
enum { LIST = 1, HEADER, CARD, BADGE }; /* layers */
enum { ROWS = 1, CARDS };               /* transforms */

/* The caller stops at the first status that is not CC_DONE. */
static void need(uint32_t status, const char *what) {
  if (status == CC_DONE) return;
  fprintf(stderr, "%s: %s\n", what, cc_status_text(status));
  exit(1);
}

static void build(cc_compositor *page) {
  need(cc_add_scroller(page, 1, 0, 0, 400, NULL), "scroller");
  need(cc_add_transform(page, ROWS, 0, 0, 20, 1, NULL), "transform of the list");
  need(cc_add_transform(page, CARDS, 0, 90, 60, 0, NULL), "transform of the card");
  need(cc_add_clip(page, 1, 0, 0, 0, 20, WIDTH, HEIGHT - 20, NULL), "clip");
  need(cc_add_effect(page, 1, 0, 160, NULL), "effect");
  need(cc_add_layer(page, LIST, 0, ROWS, 1, 0, WIDTH, 500, 0, NULL), "list");
  need(cc_add_layer(page, HEADER, 1, 0, 0, 0, WIDTH, 20, 0, NULL), "header");
  need(cc_add_layer(page, CARD, 2, CARDS, 0, 1, 60, 45, 0, NULL), "card");
  need(cc_add_layer(page, BADGE, 3, CARDS, 0, 1, 60, 45, 0, NULL), "badge");
  for (int row = 0; row < 20; row++)
    need(cc_insert_rect(page, LIST, row, 0, 25 * row, WIDTH, 25, row % 2 ? 0xcdd7e1ff : 0xf0f0ecff, NULL), "row");
  need(cc_insert_rect(page, HEADER, 0, 0, 0, WIDTH, 20, 0x283c78ff, NULL), "bar");
  need(cc_insert_rect(page, CARD, 0, 0, 0, 45, 30, 0xc83c28ff, NULL), "card's rect");
  need(cc_insert_rect(page, BADGE, 0, 15, 15, 45, 30, 0x3ca03cff, NULL), "badge's rect");
}

/* A bitmap in the header: 12 by 12 pixels. */
static void put_icon(cc_compositor *page) {
  uint8_t icon[12 * 12 * 4];
  for (int i = 0; i < 12 * 12; i++) {
    icon[4 * i] = (uint8_t)(255 - i);
    icon[4 * i + 1] = (uint8_t)i;
    icon[4 * i + 2] = 90;
    icon[4 * i + 3] = 255;
  }
  need(cc_insert_bitmap(page, HEADER, 1, 4, 4, 12, 12, icon, sizeof icon, NULL), "icon");
}

static void picture(cc_compositor *page, const char *folder, const char *name) {
  static uint8_t pixels[WIDTH * HEIGHT * 4];
  uint32_t top, bottom;
  cc_rect rect = {0, 0, 0, 0};
  char path[1024];
  need(cc_draw(page, &top, &bottom), "draw");
  size_t rects;
  need(cc_damage(page, &rect, 1, &rects), "damage");
  need(cc_copy(page, CC_RGBA, 0, HEIGHT, 4 * WIDTH, pixels, sizeof pixels), "copy");
  snprintf(path, sizeof path, "%s/%s.ppm", folder, name);
  FILE *file = fopen(path, "wb");
  if (!file) {
    perror(path);
    exit(1);
  }
  fprintf(file, "P6\n%d %d\n255\n", WIDTH, HEIGHT);
  for (int i = 0; i < WIDTH * HEIGHT; i++) fwrite(pixels + 4 * i, 1, 3, file);
  if (fclose(file)) {
    perror(path);
    exit(1);
  }
  printf("%s: ", name);
  if (rects == 0) printf("nothing drawn\n");
  else printf("rows %u to %u, %zu rect: %d %d %d %d\n", top, bottom, rects, rect.x, rect.y, rect.w, rect.h);
}

int main(int argc, char **argv) {
  const char *folder = argc > 1 ? argv[1] : ".";
  cc_compositor made = CC_EMPTY, *page = &made;
  cc_fault fault;
  uint32_t layer, changed;
  int32_t x, y, rest_x, rest_y;
  if (cc_version() != CC_VERSION) return 1;
  need(cc_new(page, WIDTH, HEIGHT, 32, 0xffffffff, 64 << 20), "new");
  build(page);
  put_icon(page);
  need(cc_commit(page), "commit");
  picture(page, folder, "built");

  need(cc_scroll(page, 1, 0, 65, NULL, NULL), "scroll");
  picture(page, folder, "scrolled");
  picture(page, folder, "again");

  need(cc_wheel(page, 20, 60, 0, 1000, &rest_x, &rest_y), "wheel");
  need(cc_offset(page, 1, &x, &y), "offset");
  printf("the list stands at %d, %d and left %d, %d\n", x, y, rest_x, rest_y);
  picture(page, folder, "end");

  need(cc_target(page, 120, 80, &layer), "target");
  printf("under 120, 80: layer %u\n", layer);
  const uint32_t status = cc_add_effect(page, 1, 0, 9, &fault);
  printf("a second effect 1: %s: %s\n", cc_status_text(status), cc_fault_text(fault.why));
  const uint32_t far = cc_set_transform(page, CARDS, 70000, 0, &fault);
  printf("a far transform: %s: %s: %lld passes %lld\n", cc_status_text(far), cc_fault_text(fault.why),
         (long long)fault.value, (long long)fault.limit);

  need(cc_set_transform(page, CARDS, 10, 30, NULL), "move the card");
  need(cc_set_opacity(page, 1, 255, NULL), "opacity");
  need(cc_replace_rect(page, LIST, 17, 0, 25 * 17, WIDTH, 25, 0xffcc00ff, NULL), "a row");
  need(cc_is_changed(page, &changed), "is changed");
  printf("before the commit a draw has %s\n", changed ? "work" : "no work");
  need(cc_commit(page), "commit");
  picture(page, folder, "changed");

  need(cc_reset(page, WIDTH, HEIGHT, 32), "reset");
  build(page);
  need(cc_commit(page), "commit");
  picture(page, folder, "rebuilt");
  need(cc_replace_rect(page, LIST, 1, 0, 25, WIDTH, 25, 0xffcc00ff, NULL), "a row");
  need(cc_commit(page), "commit");
  picture(page, folder, "row");
  cc_free(page);
  return 0;
}
