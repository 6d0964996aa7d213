/* A window whose list scrolls under the wheel and whose rows can be clicked. It can be resized; the frame is copied into
 * a texture, and only the rows that the texture lacks.
 *
 * usage: window [FRAMES]      FRAMES: scroll by itself for that many frames and end (for a trial without a user)
 */
#include "cc.h"
#include <SDL2/SDL.h>
#include <stdio.h>
#include <stdlib.h>

enum { WIDTH = 480, HEIGHT = 360, ROW = 48, ROWS = 60, BAR = 56, TILE = 256, WIDEST = 2048 };
enum { LIST = 1, TOP = 2 }; /* layers */

typedef struct {
  SDL_Window *window;
  SDL_Renderer *renderer;
  SDL_Texture *texture;
  cc_compositor page;
  uint32_t top, bottom; /* the rows that the texture lacks */
} shell;

static void need(uint32_t status, const char *what) {
  if (status == CC_DONE) return;
  fprintf(stderr, "%s: %s\n", what, cc_status_text(status));
  exit(1);
}

static void need_sdl(int holds) {
  if (holds) return;
  fprintf(stderr, "%s\n", SDL_GetError());
  exit(1);
}

/* How far the list scrolls in a view of this height. */
static int range(int height) { return height < ROW * ROWS + BAR ? ROW * ROWS + BAR - height : 0; }

/* A list of rows, each with a square mark and a line, below a translucent bar, which is a group. */
static void build(cc_compositor *page) {
  need(cc_add_scroller(page, 1, 0, 0, range(HEIGHT), NULL), "scroller");
  need(cc_add_transform(page, 1, 0, 0, BAR, 1, NULL), "transform");
  need(cc_add_effect(page, 1, 0, 230, NULL), "effect");
  need(cc_add_layer(page, LIST, 0, 1, 0, 0, WIDEST, ROW * ROWS, 0, NULL), "list");
  need(cc_add_layer(page, TOP, 1, 0, 0, 1, WIDEST, BAR, 0, NULL), "bar");
  for (int row = 0; row < ROWS; row++) {
    const int y = ROW * row;
    need(cc_insert_rect(page, LIST, 3 * row, 0, y, WIDEST, ROW, row % 2 ? 0xf4f6f9ff : 0xffffffff, NULL), "row");
    need(cc_insert_rect(page, LIST, 3 * row + 1, 16, y + 12, 24, 24,
                        0xff | (uint32_t)(0x40 + 3 * row) << 24 | 0x80c000, NULL),
         "mark");
    need(cc_insert_rect(page, LIST, 3 * row + 2, 56, y + 20, 120 + (row * 53) % 240, 8, 0x606870ff, NULL), "line");
  }
  need(cc_insert_rect(page, TOP, 0, 0, 0, WIDEST, BAR, 0x283c78ff, NULL), "bar's rect");
  need(cc_insert_rect(page, TOP, 1, 16, 20, 160, 16, 0xe0e8ffff, NULL), "title");
  need(cc_commit(page), "commit");
}

/* A texture of the frame's size, which lacks all rows. */
static void make_texture(shell *s, uint32_t w, uint32_t h) {
  if (s->texture) SDL_DestroyTexture(s->texture);
  s->texture = SDL_CreateTexture(s->renderer, SDL_PIXELFORMAT_BGRA32, SDL_TEXTUREACCESS_STREAMING, (int)w, (int)h);
  need_sdl(s->texture != NULL);
  s->top = 0;
  s->bottom = h;
}

/* Draws, and notes the rows that changed among those that the texture lacks. Whether there are any. */
static int draw(shell *s) {
  uint32_t top, bottom, w, h;
  int old_w, old_h;
  need(cc_draw(&s->page, &top, &bottom), "draw");
  need(cc_size(&s->page, &w, &h), "size");
  SDL_QueryTexture(s->texture, NULL, NULL, &old_w, &old_h);
  if ((uint32_t)old_w != w || (uint32_t)old_h != h) make_texture(s, w, h);
  else if (top < bottom) {
    const int whole = s->top >= s->bottom; /* the texture lacked none */
    if (whole || top < s->top) s->top = top;
    if (whole || bottom > s->bottom) s->bottom = bottom;
  }
  return s->top < s->bottom;
}

/* Takes the rows that the texture lacks. If it can't be locked, it lacks them still, and the next frame takes them. */
static void upload(shell *s) {
  void *pixels;
  int pitch, w;
  SDL_QueryTexture(s->texture, NULL, NULL, &w, NULL);
  const SDL_Rect rows = {0, (int)s->top, w, (int)(s->bottom - s->top)};
  if (SDL_LockTexture(s->texture, &rows, &pixels, &pitch)) return;
  const size_t bytes = (size_t)pitch * (size_t)(rows.h - 1) + 4 * (size_t)w;
  need(cc_copy(&s->page, CC_BGRA, s->top, s->bottom, (size_t)pitch, pixels, bytes), "copy");
  SDL_UnlockTexture(s->texture);
  s->top = s->bottom = 0;
}

static void resize(shell *s, int w, int h) {
  const int wide = w < 1 ? 1 : w > 2048 ? 2048 : w, tall = h < 1 ? 1 : h > 2048 ? 2048 : h;
  need(cc_set_view(&s->page, wide, tall, TILE, NULL), "view");
  need(cc_set_range(&s->page, 1, 0, range(tall), NULL), "range");
  need(cc_commit(&s->page), "commit");
}

/* Turns the mark of the row under a point red. */
static void click(shell *s, int x, int y) {
  uint32_t layer;
  int32_t at_x, at_y;
  need(cc_target(&s->page, x, y, &layer), "target");
  if (layer != LIST) return;
  need(cc_offset(&s->page, 1, &at_x, &at_y), "offset");
  const int row = (y - BAR + at_y) / ROW;
  need(cc_replace_rect(&s->page, LIST, 3 * row + 1, 16, ROW * row + 12, 24, 24, 0xc03020ff, NULL), "mark");
  need(cc_commit(&s->page), "commit");
}

/* Memory may be there again at the next turn of the wheel. */
static void wheel(shell *s, int x, int y, int by) {
  const uint32_t status = cc_wheel(&s->page, x, y, 0, by, NULL, NULL);
  if (status != CC_MEMORY) need(status, "wheel");
}

/* What an event asks for; 0 ends the program. */
static int handle(shell *s, const SDL_Event *event) {
  int x, y;
  if (event->type == SDL_QUIT) return 0;
  if (event->type == SDL_WINDOWEVENT && event->window.event == SDL_WINDOWEVENT_SIZE_CHANGED)
    resize(s, event->window.data1, event->window.data2);
  if (event->type == SDL_MOUSEWHEEL) {
    SDL_GetMouseState(&x, &y);
    wheel(s, x, y, (event->wheel.direction == SDL_MOUSEWHEEL_FLIPPED ? 40 : -40) * event->wheel.y);
  }
  if (event->type == SDL_MOUSEBUTTONDOWN) click(s, event->button.x, event->button.y);
  if (event->type == SDL_RENDER_TARGETS_RESET || event->type == SDL_RENDER_DEVICE_RESET) {
    uint32_t w, h;
    need(cc_size(&s->page, &w, &h), "size");
    make_texture(s, w, h);
  }
  return 1;
}

int main(int argc, char **argv) {
  const int frames = argc > 1 ? atoi(argv[1]) : 0;
  shell s = {NULL, NULL, NULL, CC_EMPTY, 0, 0};
  SDL_Event event;
  if (cc_version() != CC_VERSION) return 1;
  need(cc_new(&s.page, WIDTH, HEIGHT, TILE, 0xffffffff, 64 << 20), "new");
  build(&s.page);
  need_sdl(!SDL_Init(SDL_INIT_VIDEO));
  s.window = SDL_CreateWindow("cc", SDL_WINDOWPOS_CENTERED, SDL_WINDOWPOS_CENTERED, WIDTH, HEIGHT, SDL_WINDOW_RESIZABLE);
  need_sdl(s.window != NULL);
  s.renderer = SDL_CreateRenderer(s.window, -1, SDL_RENDERER_PRESENTVSYNC);
  if (!s.renderer) s.renderer = SDL_CreateRenderer(s.window, -1, 0);
  need_sdl(s.renderer != NULL);
  make_texture(&s, WIDTH, HEIGHT);
  for (int frame = 0, open = 1; open && (!frames || frame < frames); frame++) {
    if (!frames && SDL_WaitEvent(&event)) open = handle(&s, &event);
    while (SDL_PollEvent(&event)) open = handle(&s, &event) && open;
    if (frames) wheel(&s, WIDTH / 2, HEIGHT / 2, 7);
    if (draw(&s)) upload(&s);
    SDL_RenderCopy(s.renderer, s.texture, NULL, NULL);
    SDL_RenderPresent(s.renderer);
  }
  SDL_DestroyTexture(s.texture);
  SDL_DestroyRenderer(s.renderer);
  SDL_DestroyWindow(s.window);
  SDL_Quit();
  cc_free(&s.page);
  return 0;
}
