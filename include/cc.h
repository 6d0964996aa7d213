/* cc: a page compositor to be built into a program.
 *
 * A page of layers is changed by commands, committed, scrolled, drawn and asked what lies under a point.
 * docs/EMBEDDING.md is the page to read first; this header is C11 and C++.
 *
 * Handles     A program keeps a cc_compositor, which starts as CC_EMPTY. cc_new fills it, cc_free ends what it holds and
 *             leaves it empty. Each call answers CC_NONE for an empty one. Do not copy a handle: after cc_free of one
 *             copy, the other still points at freed memory.
 * Threads     The library starts none and takes no lock. A compositor is used by one call at a time, on the thread
 *             that made it. Compositors are independent of each other. Make no call from a signal handler.
 * Ownership   Buffers stay the caller's, and the library keeps no pointer to them. No two pointers of a call may
 *             overlap. A null pointer is an error that the call answers (CC_NONE for a handle, else CC_BAD), unless a
 *             call says that it may be null. The macros below test for null, so a call from another language, or
 *             through a function pointer, must pass none.
 * Errors      A call answers a status. After any but CC_DONE the pages and the scrolls are as before, and what the
 *             call would have told is not told; only a cc_fault is told by an edit's CC_BAD and CC_REFUSED. After
 *             CC_MEMORY of cc_draw the frame may show anything: the next cc_draw draws it whole.
 * Memory      The program's malloc, realloc and free.
 * Numbers     Whole pixels, x to the right, y downwards. Colours are 0xRRGGBBAA and premultiplied: red, green and
 *             blue are at most alpha. Ids are 1 to 65535, a family each for transforms, clips, effects, scrollers
 *             and layers; 0 is the root of a family, or no scroller. docs/FORMAT.md has the ranges and the faults
 *             of all commands.
 * Processor   x86-64-v2 or later (SSE4.2).
 */
#ifndef CC_H
#define CC_H

#include <stddef.h>
#include <stdint.h>

#ifdef __cplusplus
extern "C" {
#endif

/* The version of this header. cc_version tells that of the library: the two have to be equal.
 *
 * Version 1 had a type `cc`, whose pointers cc_new gave. It has no such name any more, so that a program written for
 * version 1 does not compile: declare `cc_compositor page = CC_EMPTY;` and pass `&page`. */
#define CC_VERSION 2

/* A compositor: a main page, which commands change, an active page, which is shown, and a frame. */
typedef struct cc_compositor {
  void *at; /* the library's */
} cc_compositor;

/* A handle that has no compositor. */
#define CC_EMPTY {0}

/* What the calls answer. */
enum {
  CC_DONE = 0,
  CC_BAD = 1,     /* the numbers are wrong by themselves, whatever the page: a view out of its ranges, a colour that is
                     not premultiplied, a null pointer, no such order or command; of an edit cc_fault tells why */
  CC_UNKNOWN = 2, /* the active page has no such scroller */
  CC_REFUSED = 3, /* the page refuses the command: cc_fault tells why */
  CC_SHORT = 4,   /* the frame lacks one of the rows, or the buffer has no room for them; nothing was written */
  CC_NONE = 5,    /* the handle has no compositor */
  CC_TAKEN = 6,   /* the handle has a compositor already */
  CC_MEMORY = 11  /* memory ran out */
};

/* Why an edit is CC_REFUSED (the first of these that applies) or CC_BAD. */
enum {
  CC_UNKNOWN_ID = 1,     /* a layer or node that the command names is not there */
  CC_ID_USED,            /* the id is taken, or a layer ever had it */
  CC_BAD_PLACE,          /* a place past the end of a list */
  CC_TOO_MANY,           /* one more than there may be (`limit`) */
  CC_OUT_OF_RANGE,       /* `value` passes the end of its range (`limit`) */
  CC_NOT_NESTED,         /* the layers of an effect, with those of the effects below it, would not stand together */
  CC_NO_COMMAND,         /* no command has the number `value` */
  CC_FIELD_COUNT,        /* `value` fields are given, and the command takes `limit` */
  CC_BELOW_ZERO,         /* the field with this number (`field`, from 0) is `value`, and may not be below 0 */
  CC_NOT_PREMULTIPLIED,  /* red, green or blue of the colour exceeds its alpha; of a bitmap, pixel `value` (from 0) */
  CC_BITMAP_SIDE,        /* a side of a bitmap is not 1 to 256 */
  CC_BITMAP_BYTES        /* `value` bytes are given, and the bitmap takes `limit` */
};

typedef struct cc_fault {
  uint32_t why, field;
  int64_t value, limit;
} cc_fault;

typedef struct cc_rect {
  int32_t x, y, w, h;
} cc_rect;

/* The orders of the bytes of a pixel. */
enum { CC_RGBA = 0, CC_BGRA = 1 };

static inline const char *cc_status_text(uint32_t status) {
  switch (status) {
    case CC_DONE: return "done";
    case CC_BAD: return "a number or a pointer is wrong";
    case CC_UNKNOWN: return "the active page has no such scroller";
    case CC_REFUSED: return "the page refuses the command";
    case CC_SHORT: return "the buffer is too small, or the frame has no such row";
    case CC_NONE: return "there is no compositor";
    case CC_TAKEN: return "there is a compositor already";
    case CC_MEMORY: return "out of memory";
    default: return "no status";
  }
}

static inline const char *cc_fault_text(uint32_t why) {
  switch (why) {
    case CC_UNKNOWN_ID: return "a layer or node is not there";
    case CC_ID_USED: return "the id is taken";
    case CC_BAD_PLACE: return "a place past the end of the list";
    case CC_TOO_MANY: return "one more than there may be";
    case CC_OUT_OF_RANGE: return "a value is out of its range";
    case CC_NOT_NESTED: return "the layers of an effect would not stand together";
    case CC_NO_COMMAND: return "no command has this number";
    case CC_FIELD_COUNT: return "too few or too many fields";
    case CC_BELOW_ZERO: return "a field is below 0";
    case CC_NOT_PREMULTIPLIED: return "a colour is not premultiplied";
    case CC_BITMAP_SIDE: return "a side of a bitmap is not 1 to 256";
    case CC_BITMAP_BYTES: return "a bitmap has too few or too many bytes";
    default: return "no fault";
  }
}

/* ---- the object */

/* The version of the library. */
uint32_t cc_version(void);

/* A compositor of an empty page: a view of w by h (1 to 2048), tiles with sides of `tile` pixels (16 to 256; 256 is
 * good), over a colour. `budget` is how many bytes the images of tiles may take beside those that the last draw used:
 * 64 MiB is good. CC_TAKEN if the handle has a compositor already. */
uint32_t cc_new(cc_compositor *page, uint32_t w, uint32_t h, uint32_t tile, uint32_t rgba, size_t budget);

/* Ends a compositor; nothing is done for an empty handle or a null pointer. */
void cc_free(cc_compositor *page);

/* Starts the main page anew, so that all ids are free. The active page is shown until the next commit. The new page
 * has no scrollers, so it keeps no scroll: to go on where the old page stood, read cc_offset, rebuild the page and set
 * each scroller by cc_scroll_to, with no scroll in between. */
uint32_t cc_reset(cc_compositor *page, uint32_t w, uint32_t h, uint32_t tile);

/* Shows what the commands made of the main page. Its scrollers stand at its own values from then on. */
uint32_t cc_commit(cc_compositor *page);

/* Scrolls the active page as far as the scroller's range allows, and tells how far; the main page takes the same, if
 * it has the scroller. What the scroller can't take goes nowhere: cc_wheel hands it on. `by_x` and `by_y` may be null.
 * Needs no memory. */
uint32_t cc_scroll(cc_compositor *page, uint32_t scroller, int32_t dx, int32_t dy, int32_t *by_x, int32_t *by_y);

/* Scrolls what lies under a point, the nearest scroller first, and tells what none of them took. CC_BAD if more than
 * 1048576 is asked along an axis. `rest_x` and `rest_y` may be null. */
uint32_t cc_wheel(cc_compositor *page, int32_t x, int32_t y, int32_t dx, int32_t dy, int32_t *rest_x,
                  int32_t *rest_y);

/* Tells where a scroller of the active page stands; (0, 0) if there is none. */
uint32_t cc_offset(cc_compositor *page, uint32_t scroller, int32_t *x, int32_t *y);

/* Tells the topmost layer at a point of the screen; 0 if there is none. */
uint32_t cc_target(cc_compositor *page, int32_t x, int32_t y, uint32_t *layer);

/* Tells whether a draw may change the frame: 0 if the frame shows the active page already, else 1. */
uint32_t cc_is_changed(cc_compositor *page, uint32_t *changed);

/* Draws the active page. The rows outside of `top` to `bottom` (the row after the last) are as they were: those between
 * are what cc_copy has to take. Both may be null. */
uint32_t cc_draw(cc_compositor *page, uint32_t *top, uint32_t *bottom);

/* Tells the rects of the frame outside of which the last draw left it as it was: as many as fit in `room` are written,
 * and `count` is how many there are. They may overlap. `rects` may be null: none is written then. */
uint32_t cc_damage(cc_compositor *page, cc_rect *rects, size_t room, size_t *count);

/* Tells the frame's sides: those of the view that was drawn last, before the first draw those of cc_new. After
 * CC_MEMORY of cc_draw they may be those of the new view. */
uint32_t cc_size(cc_compositor *page, uint32_t *w, uint32_t *h);

/* Copies rows `top` to `bottom` of the frame into a buffer whose rows begin `stride` bytes apart, in this order of
 * bytes. Bytes between the rows stay, so the buffer may be a part of a larger picture. CC_BAD if there is no such order
 * or `top` is more than `bottom`; CC_SHORT if the frame lacks one of the rows, `stride` is less than a row, or the last
 * row does not fit. `bytes` is at most PTRDIFF_MAX. Before the first draw all is black. */
uint32_t cc_copy(cc_compositor *page, uint32_t order, uint32_t top, uint32_t bottom, size_t stride, uint8_t *to,
                 size_t bytes);

/* Frees what is kept to draw faster: the images of tiles that the last draw did not use. Nothing that is shown changes.
 * A draw that runs out of memory does so by itself. */
uint32_t cc_trim(cc_compositor *page);

/* Applies a command to the main page: one of the numbers below, its fields, its colour, and the pixels of a bitmap. The
 * functions below are easier to use. `fields`, if `count` is 0, `pixels`, if `bytes` is 0, and `fault` may be null. */
uint32_t cc_edit(cc_compositor *page, uint32_t op, const int32_t *fields, size_t count, uint32_t rgba,
                 const uint8_t *pixels, size_t bytes, cc_fault *fault);

/* ---- tests for null pointers, which the functions of the library may not be given */

static inline uint32_t cc_new_checked(cc_compositor *page, uint32_t w, uint32_t h, uint32_t tile, uint32_t rgba,
                                      size_t budget) {
  if (!page) return CC_NONE;
  return (cc_new)(page, w, h, tile, rgba, budget);
}
#define cc_new(...) cc_new_checked(__VA_ARGS__)

static inline void cc_free_checked(cc_compositor *page) {
  if (page) (cc_free)(page);
}
#define cc_free(...) cc_free_checked(__VA_ARGS__)

static inline uint32_t cc_reset_checked(cc_compositor *page, uint32_t w, uint32_t h, uint32_t tile) {
  if (!page) return CC_NONE;
  return (cc_reset)(page, w, h, tile);
}
#define cc_reset(...) cc_reset_checked(__VA_ARGS__)

static inline uint32_t cc_commit_checked(cc_compositor *page) {
  if (!page) return CC_NONE;
  return (cc_commit)(page);
}
#define cc_commit(...) cc_commit_checked(__VA_ARGS__)

static inline uint32_t cc_scroll_checked(cc_compositor *page, uint32_t scroller, int32_t dx, int32_t dy,
                                         int32_t *by_x, int32_t *by_y) {
  int32_t a = 0, b = 0;
  if (!page) return CC_NONE;
  return (cc_scroll)(page, scroller, dx, dy, by_x ? by_x : &a, by_y ? by_y : &b);
}
#define cc_scroll(...) cc_scroll_checked(__VA_ARGS__)

static inline uint32_t cc_wheel_checked(cc_compositor *page, int32_t x, int32_t y, int32_t dx, int32_t dy,
                                        int32_t *rest_x, int32_t *rest_y) {
  int32_t a = 0, b = 0;
  if (!page) return CC_NONE;
  return (cc_wheel)(page, x, y, dx, dy, rest_x ? rest_x : &a, rest_y ? rest_y : &b);
}
#define cc_wheel(...) cc_wheel_checked(__VA_ARGS__)

static inline uint32_t cc_offset_checked(cc_compositor *page, uint32_t scroller, int32_t *x, int32_t *y) {
  if (!page) return CC_NONE;
  if (!x || !y) return CC_BAD;
  return (cc_offset)(page, scroller, x, y);
}
#define cc_offset(...) cc_offset_checked(__VA_ARGS__)

static inline uint32_t cc_target_checked(cc_compositor *page, int32_t x, int32_t y, uint32_t *layer) {
  if (!page) return CC_NONE;
  if (!layer) return CC_BAD;
  return (cc_target)(page, x, y, layer);
}
#define cc_target(...) cc_target_checked(__VA_ARGS__)

static inline uint32_t cc_is_changed_checked(cc_compositor *page, uint32_t *changed) {
  if (!page) return CC_NONE;
  if (!changed) return CC_BAD;
  return (cc_is_changed)(page, changed);
}
#define cc_is_changed(...) cc_is_changed_checked(__VA_ARGS__)

static inline uint32_t cc_draw_checked(cc_compositor *page, uint32_t *top, uint32_t *bottom) {
  uint32_t a = 0, b = 0;
  if (!page) return CC_NONE;
  return (cc_draw)(page, top ? top : &a, bottom ? bottom : &b);
}
#define cc_draw(...) cc_draw_checked(__VA_ARGS__)

static inline uint32_t cc_damage_checked(cc_compositor *page, cc_rect *rects, size_t room, size_t *count) {
  cc_rect none = {0, 0, 0, 0};
  if (!page) return CC_NONE;
  if (!count) return CC_BAD;
  return (cc_damage)(page, rects ? rects : &none, rects ? room : 0, count);
}
#define cc_damage(...) cc_damage_checked(__VA_ARGS__)

static inline uint32_t cc_size_checked(cc_compositor *page, uint32_t *w, uint32_t *h) {
  if (!page) return CC_NONE;
  if (!w || !h) return CC_BAD;
  return (cc_size)(page, w, h);
}
#define cc_size(...) cc_size_checked(__VA_ARGS__)

static inline uint32_t cc_copy_checked(cc_compositor *page, uint32_t order, uint32_t top, uint32_t bottom,
                                       size_t stride, uint8_t *to, size_t bytes) {
  if (!page) return CC_NONE;
  if (!to) return CC_BAD;
  return (cc_copy)(page, order, top, bottom, stride, to, bytes);
}
#define cc_copy(...) cc_copy_checked(__VA_ARGS__)

static inline uint32_t cc_trim_checked(cc_compositor *page) {
  if (!page) return CC_NONE;
  return (cc_trim)(page);
}
#define cc_trim(...) cc_trim_checked(__VA_ARGS__)

static inline uint32_t cc_edit_checked(cc_compositor *page, uint32_t op, const int32_t *fields, size_t count,
                                       uint32_t rgba, const uint8_t *pixels, size_t bytes, cc_fault *fault) {
  static const int32_t no_field[1] = {0};
  static const uint8_t no_pixel[1] = {0};
  cc_fault told = {0, 0, 0, 0};
  if (!page) return CC_NONE;
  if ((!fields && count) || (!pixels && bytes)) return CC_BAD;
  return (cc_edit)(page, op, fields ? fields : no_field, count, rgba, pixels ? pixels : no_pixel, bytes,
                   fault ? fault : &told);
}
#define cc_edit(...) cc_edit_checked(__VA_ARGS__)

/* ---- the commands, which change the main page. `fault` may be null. */

/* What follows is made by tools/command_fields.py. */
/* The numbers of the commands, for cc_edit. */
enum {
  CC_ADD_TRANSFORM = 1,
  CC_SET_TRANSFORM = 2,
  CC_ADD_CLIP = 3,
  CC_SET_CLIP = 4,
  CC_ADD_EFFECT = 5,
  CC_SET_OPACITY = 6,
  CC_ADD_SCROLLER = 7,
  CC_SET_RANGE = 8,
  CC_SCROLL_BY = 9,
  CC_SCROLL_TO = 10,
  CC_ADD_LAYER = 11,
  CC_REMOVE_LAYER = 12,
  CC_RESIZE_LAYER = 13,
  CC_SET_COLOUR = 14,
  CC_MOVE_LAYER = 15,
  CC_SET_VIEW = 16,
  CC_REMOVE_ITEM = 17,
  CC_INSERT_RECT = 18,
  CC_REPLACE_RECT = 19,
  CC_INSERT_BITMAP = 20,
  CC_REPLACE_BITMAP = 21
};

/* Adds a transform: the translation of its parent, plus `(x, y)`, minus the offset of the scroller, if it names
 * one. */
static inline uint32_t cc_add_transform(cc_compositor *page, int32_t id, int32_t parent, int32_t x, int32_t y,
                                        int32_t scroller, cc_fault *fault) {
  const int32_t f[] = {id, parent, x, y, scroller};
  return cc_edit(page, CC_ADD_TRANSFORM, f, 5, 0, NULL, 0, fault);
}

/* Gives a transform another `(x, y)`. */
static inline uint32_t cc_set_transform(cc_compositor *page, int32_t id, int32_t x, int32_t y, cc_fault *fault) {
  const int32_t f[] = {id, x, y};
  return cc_edit(page, CC_SET_TRANSFORM, f, 3, 0, NULL, 0, fault);
}

/* Adds a clip: a rect that stands in the space of a transform, cut by the clips above it. */
static inline uint32_t cc_add_clip(cc_compositor *page, int32_t id, int32_t parent, int32_t transform, int32_t x,
                                   int32_t y, int32_t w, int32_t h, cc_fault *fault) {
  const int32_t f[] = {id, parent, transform, x, y, w, h};
  return cc_edit(page, CC_ADD_CLIP, f, 7, 0, NULL, 0, fault);
}

/* Gives a clip another rect. */
static inline uint32_t cc_set_clip(cc_compositor *page, int32_t id, int32_t x, int32_t y, int32_t w, int32_t h,
                                   cc_fault *fault) {
  const int32_t f[] = {id, x, y, w, h};
  return cc_edit(page, CC_SET_CLIP, f, 5, 0, NULL, 0, fault);
}

/* Adds an effect. Its layers are drawn as a group, faded to `opacity` of 255. */
static inline uint32_t cc_add_effect(cc_compositor *page, int32_t id, int32_t parent, int32_t opacity,
                                     cc_fault *fault) {
  const int32_t f[] = {id, parent, opacity};
  return cc_edit(page, CC_ADD_EFFECT, f, 3, 0, NULL, 0, fault);
}

/* Gives an effect another opacity. */
static inline uint32_t cc_set_opacity(cc_compositor *page, int32_t id, int32_t opacity, cc_fault *fault) {
  const int32_t f[] = {id, opacity};
  return cc_edit(page, CC_SET_OPACITY, f, 2, 0, NULL, 0, fault);
}

/* Adds a scroller, whose main value is (0, 0). It scrolls to (max_x, max_y). What it cannot take of a cc_wheel
 * goes to its parent. */
static inline uint32_t cc_add_scroller(cc_compositor *page, int32_t id, int32_t parent, int32_t max_x, int32_t max_y,
                                       cc_fault *fault) {
  const int32_t f[] = {id, parent, max_x, max_y};
  return cc_edit(page, CC_ADD_SCROLLER, f, 4, 0, NULL, 0, fault);
}

/* Gives a scroller another range, and clamps its main value to it. */
static inline uint32_t cc_set_range(cc_compositor *page, int32_t id, int32_t max_x, int32_t max_y, cc_fault *fault) {
  const int32_t f[] = {id, max_x, max_y};
  return cc_edit(page, CC_SET_RANGE, f, 3, 0, NULL, 0, fault);
}

/* Adds to a scroller's main value, and clamps it to the range. It is a scroller of the main page; cc_scroll moves
 * both pages at once. */
static inline uint32_t cc_scroll_by(cc_compositor *page, int32_t id, int32_t dx, int32_t dy, cc_fault *fault) {
  const int32_t f[] = {id, dx, dy};
  return cc_edit(page, CC_SCROLL_BY, f, 3, 0, NULL, 0, fault);
}

/* Sets a scroller's main value, clamped to the range. */
static inline uint32_t cc_scroll_to(cc_compositor *page, int32_t id, int32_t x, int32_t y, cc_fault *fault) {
  const int32_t f[] = {id, x, y};
  return cc_edit(page, CC_SCROLL_TO, f, 3, 0, NULL, 0, fault);
}

/* Adds a layer with an empty display list, so that it has this place. */
static inline uint32_t cc_add_layer(cc_compositor *page, int32_t id, int32_t at, int32_t transform, int32_t clip,
                                    int32_t effect, int32_t w, int32_t h, uint32_t rgba, cc_fault *fault) {
  const int32_t f[] = {id, at, transform, clip, effect, w, h};
  return cc_edit(page, CC_ADD_LAYER, f, 7, rgba, NULL, 0, fault);
}

/* Takes a layer out for good: no later layer has its id. */
static inline uint32_t cc_remove_layer(cc_compositor *page, int32_t id, cc_fault *fault) {
  const int32_t f[] = {id};
  return cc_edit(page, CC_REMOVE_LAYER, f, 1, 0, NULL, 0, fault);
}

/* Gives a layer another size; its display list stays. */
static inline uint32_t cc_resize_layer(cc_compositor *page, int32_t id, int32_t w, int32_t h, cc_fault *fault) {
  const int32_t f[] = {id, w, h};
  return cc_edit(page, CC_RESIZE_LAYER, f, 3, 0, NULL, 0, fault);
}

/* Gives a layer another background colour. It shows only where a tile is missing, which no draw of this library
 * has. */
static inline uint32_t cc_set_colour(cc_compositor *page, int32_t id, uint32_t rgba, cc_fault *fault) {
  const int32_t f[] = {id};
  return cc_edit(page, CC_SET_COLOUR, f, 1, rgba, NULL, 0, fault);
}

/* Takes a layer out of the list and inserts it at this place of the others. */
static inline uint32_t cc_move_layer(cc_compositor *page, int32_t id, int32_t at, cc_fault *fault) {
  const int32_t f[] = {id, at};
  return cc_edit(page, CC_MOVE_LAYER, f, 2, 0, NULL, 0, fault);
}

/* Sets the viewport and the tile size. */
static inline uint32_t cc_set_view(cc_compositor *page, int32_t w, int32_t h, int32_t tile, cc_fault *fault) {
  const int32_t f[] = {w, h, tile};
  return cc_edit(page, CC_SET_VIEW, f, 3, 0, NULL, 0, fault);
}

/* Removes an item of a layer's display list. */
static inline uint32_t cc_remove_item(cc_compositor *page, int32_t layer, int32_t at, cc_fault *fault) {
  const int32_t f[] = {layer, at};
  return cc_edit(page, CC_REMOVE_ITEM, f, 2, 0, NULL, 0, fault);
}

/* Inserts an item into a layer's display list, so that it has this place. */
static inline uint32_t cc_insert_rect(cc_compositor *page, int32_t layer, int32_t at, int32_t x, int32_t y, int32_t w,
                                      int32_t h, uint32_t rgba, cc_fault *fault) {
  const int32_t f[] = {layer, at, x, y, w, h};
  return cc_edit(page, CC_INSERT_RECT, f, 6, rgba, NULL, 0, fault);
}

/* Puts another item in the place of one of a layer's display list. */
static inline uint32_t cc_replace_rect(cc_compositor *page, int32_t layer, int32_t at, int32_t x, int32_t y,
                                       int32_t w, int32_t h, uint32_t rgba, cc_fault *fault) {
  const int32_t f[] = {layer, at, x, y, w, h};
  return cc_edit(page, CC_REPLACE_RECT, f, 6, rgba, NULL, 0, fault);
}

/* Inserts an item into a layer's display list, so that it has this place. A bitmap of w by h pixels (1 to 256
 * each), which are copied: red, green, blue and alpha of each, row by row, and premultiplied. `bytes` is how many
 * bytes they are, 4 * w * h. CC_BAD if a side, the count or a pixel is none of these. */
static inline uint32_t cc_insert_bitmap(cc_compositor *page, int32_t layer, int32_t at, int32_t x, int32_t y,
                                        int32_t w, int32_t h, const uint8_t *rgba, size_t bytes, cc_fault *fault) {
  const int32_t f[] = {layer, at, x, y, w, h};
  return cc_edit(page, CC_INSERT_BITMAP, f, 6, 0, rgba, bytes, fault);
}

/* Puts another item in the place of one of a layer's display list. */
static inline uint32_t cc_replace_bitmap(cc_compositor *page, int32_t layer, int32_t at, int32_t x, int32_t y,
                                         int32_t w, int32_t h, const uint8_t *rgba, size_t bytes, cc_fault *fault) {
  const int32_t f[] = {layer, at, x, y, w, h};
  return cc_edit(page, CC_REPLACE_BITMAP, f, 6, 0, rgba, bytes, fault);
}
/* The end of what is made. */

#ifdef __cplusplus
}
#endif
#endif
