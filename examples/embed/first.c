/* The shortest program: a page of two rects, drawn into first.ppm. */
#include "cc.h"
#include <stdio.h>

int main(void) {
  cc_compositor page = CC_EMPTY;
  uint8_t pixels[120][160][4];
  if (cc_new(&page, 160, 120, 64, 0xffffffff, 1 << 20) != CC_DONE) return 1;
  cc_add_layer(&page, 1, 0, 0, 0, 0, 160, 120, 0, NULL);
  cc_insert_rect(&page, 1, 0, 20, 20, 80, 60, 0x3060c0ff, NULL);
  cc_insert_rect(&page, 1, 1, 60, 40, 80, 60, 0x80300080, NULL); /* half transparent: premultiplied */
  if (cc_commit(&page) || cc_draw(&page, NULL, NULL) ||
      cc_copy(&page, CC_RGBA, 0, 120, 4 * 160, &pixels[0][0][0], sizeof pixels))
    return 1;
  printf("P6 160 120 255\n");
  for (int i = 0; i < 120 * 160; i++) fwrite(pixels[i / 160][i % 160], 1, 3, stdout);
  cc_free(&page);
  return 0;
}
