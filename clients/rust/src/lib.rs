//! A safe wrapper of libcc, the page compositor whose frames are proved to be the direct painting of the page.
//!
//! ```no_run
//! # fn main() -> Result<(), cc_compositor::Error> {
//! let mut page = cc_compositor::Compositor::new(160, 120, 64, 0xffffffff, 64 << 20)?;
//! page.add_layer(1, 0, 0, 0, 0, (160, 120), 0)?;
//! page.insert_rect(1, 0, (20, 20, 80, 60), 0x3060c0ff)?;
//! page.commit()?;
//! let changed = page.draw()?;
//! let mut pixels = vec![0; 4 * 160 * 120];
//! page.copy(cc_compositor::Order::Rgba, 0..120, 4 * 160, &mut pixels)?;
//! # let _ = changed; Ok(()) }
//! ```
//!
//! docs/EMBEDDING.md says what the calls do. A `Compositor` is neither `Send` nor `Sync`.

use std::cell::UnsafeCell;
use std::ffi::c_void;
use std::fmt;
use std::ops::Range;
use std::ptr;

/// The version of the interface that this crate is for.
pub const VERSION: u32 = 2;

/// Why a page refuses a command.
#[derive(Clone, Copy, Debug, PartialEq, Eq)]
pub enum Fault {
    UnknownId,
    IdUsed,
    BadPlace,
    TooMany { limit: i64 },
    OutOfRange { value: i64, limit: i64 },
    NotNested,
}

/// Why the numbers of a command are wrong, whatever the page.
#[derive(Clone, Copy, Debug, PartialEq, Eq)]
pub enum BadNumbers {
    /// The field with this number, from 0, may not be below 0.
    BelowZero { field: u32, value: i64 },
    /// Red, green or blue of the colour, or of a pixel of a bitmap, exceeds its alpha.
    NotPremultiplied,
    /// A side of a bitmap is not 1 to 256.
    BitmapSide,
    /// A bitmap takes another number of bytes.
    BitmapBytes { given: i64, wanted: i64 },
    /// The command has no such number, or takes another number of fields.
    NoCommand,
}

/// Why a call did nothing.
#[derive(Clone, Copy, Debug, PartialEq, Eq)]
pub enum Error {
    /// A number is outside its range, or a colour is not premultiplied.
    Bad,
    /// The numbers of a command are wrong.
    BadNumbers(BadNumbers),
    /// The active page has no such scroller.
    Unknown,
    /// The page refuses the command.
    Refused(Fault),
    /// The buffer is too small, its rows are too short, or the frame lacks one of them.
    Short,
    /// Memory ran out.
    Memory,
    /// The library that is linked has this version of the interface, and not [`VERSION`].
    Version(u32),
    /// The library answered a status that this crate does not know.
    Status(u32),
}

impl fmt::Display for Error {
    fn fmt(&self, to: &mut fmt::Formatter<'_>) -> fmt::Result {
        match self {
            Error::Bad => write!(to, "a number is out of its range, or a colour is not premultiplied"),
            Error::BadNumbers(BadNumbers::BelowZero { field, value }) => {
                write!(to, "field {field} is {value}, and may not be below 0")
            }
            Error::BadNumbers(BadNumbers::NotPremultiplied) => write!(to, "a colour is not premultiplied"),
            Error::BadNumbers(BadNumbers::BitmapSide) => write!(to, "a side of a bitmap is not 1 to 256"),
            Error::BadNumbers(BadNumbers::BitmapBytes { given, wanted }) => {
                write!(to, "{given} bytes, and the bitmap takes {wanted}")
            }
            Error::BadNumbers(BadNumbers::NoCommand) => write!(to, "there is no such command"),
            Error::Unknown => write!(to, "the active page has no such scroller"),
            Error::Refused(Fault::UnknownId) => write!(to, "a layer or node is not there"),
            Error::Refused(Fault::IdUsed) => write!(to, "the id is taken"),
            Error::Refused(Fault::BadPlace) => write!(to, "a place past the end of the list"),
            Error::Refused(Fault::TooMany { limit }) => write!(to, "one more than {limit}"),
            Error::Refused(Fault::OutOfRange { value, limit }) => write!(to, "{value} passes {limit}"),
            Error::Refused(Fault::NotNested) => write!(to, "the layers of an effect would not stand together"),
            Error::Short => write!(to, "the buffer is too small, or the frame has no such row"),
            Error::Memory => write!(to, "out of memory"),
            Error::Version(found) => write!(to, "libcc has version {found}, this crate is for {VERSION}"),
            Error::Status(status) => write!(to, "libcc answered the unknown status {status}"),
        }
    }
}

impl std::error::Error for Error {}

/// The order of the bytes of a pixel.
#[derive(Clone, Copy, Debug, PartialEq, Eq)]
pub enum Order {
    Rgba = 0,
    Bgra = 1,
}

/// Left, top, width and height.
pub type Rect = (i32, i32, i32, i32);

/// What is kept of a compositor.
#[repr(C)]
struct Handle {
    at: *mut c_void,
}

#[repr(C)]
struct FaultOfC {
    why: u32,
    field: u32,
    value: i64,
    limit: i64,
}

#[repr(C)]
#[derive(Clone, Copy)]
struct RectOfC {
    x: i32,
    y: i32,
    w: i32,
    h: i32,
}

extern "C" {
    fn cc_version() -> u32;
    fn cc_new(page: *mut Handle, w: u32, h: u32, tile: u32, rgba: u32, budget: usize) -> u32;
    fn cc_free(page: *mut Handle);
    fn cc_reset(page: *mut Handle, w: u32, h: u32, tile: u32) -> u32;
    fn cc_edit(
        page: *mut Handle,
        op: u32,
        fields: *const i32,
        count: usize,
        rgba: u32,
        pixels: *const u8,
        bytes: usize,
        fault: *mut FaultOfC,
    ) -> u32;
    fn cc_commit(page: *mut Handle) -> u32;
    fn cc_scroll(page: *mut Handle, scroller: u32, dx: i32, dy: i32, by_x: *mut i32, by_y: *mut i32) -> u32;
    fn cc_wheel(page: *mut Handle, x: i32, y: i32, dx: i32, dy: i32, rest_x: *mut i32, rest_y: *mut i32) -> u32;
    fn cc_offset(page: *mut Handle, scroller: u32, x: *mut i32, y: *mut i32) -> u32;
    fn cc_target(page: *mut Handle, x: i32, y: i32, layer: *mut u32) -> u32;
    fn cc_is_changed(page: *mut Handle, changed: *mut u32) -> u32;
    fn cc_draw(page: *mut Handle, top: *mut u32, bottom: *mut u32) -> u32;
    fn cc_damage(page: *mut Handle, rects: *mut RectOfC, room: usize, count: *mut usize) -> u32;
    fn cc_size(page: *mut Handle, w: *mut u32, h: *mut u32) -> u32;
    fn cc_copy(page: *mut Handle, order: u32, top: u32, bottom: u32, stride: usize, to: *mut u8, bytes: usize) -> u32;
    fn cc_trim(page: *mut Handle) -> u32;
}

fn answer(status: u32) -> Result<(), Error> {
    match status {
        0 => Ok(()),
        1 => Err(Error::Bad),
        2 => Err(Error::Unknown),
        4 => Err(Error::Short),
        11 => Err(Error::Memory),
        _ => Err(Error::Status(status)),
    }
}

fn answer_of_edit(status: u32, fault: &FaultOfC) -> Result<(), Error> {
    let FaultOfC { field, value, limit, .. } = *fault;
    match (status, fault.why) {
        (3, 1) => Err(Error::Refused(Fault::UnknownId)),
        (3, 2) => Err(Error::Refused(Fault::IdUsed)),
        (3, 3) => Err(Error::Refused(Fault::BadPlace)),
        (3, 4) => Err(Error::Refused(Fault::TooMany { limit })),
        (3, 5) => Err(Error::Refused(Fault::OutOfRange { value, limit })),
        (3, 6) => Err(Error::Refused(Fault::NotNested)),
        (1, 9) => Err(Error::BadNumbers(BadNumbers::BelowZero { field, value })),
        (1, 10) => Err(Error::BadNumbers(BadNumbers::NotPremultiplied)),
        (1, 11) => Err(Error::BadNumbers(BadNumbers::BitmapSide)),
        (1, 12) => Err(Error::BadNumbers(BadNumbers::BitmapBytes { given: value, wanted: limit })),
        (1, _) => Err(Error::BadNumbers(BadNumbers::NoCommand)),
        _ => answer(status),
    }
}

/// A main page, which commands change, an active page, which is shown, and a frame.
pub struct Compositor {
    // A cell, as each call takes the compositor out of the handle and puts it back, even one that changes nothing.
    handle: UnsafeCell<Handle>,
}

// SAFETY of each block: the handle is that of a compositor which `new` made and `drop` has not ended; `&mut self`, or a
// type that is not `Sync`, lets one call have it at a time; the references that a call is given are of this frame alone
// and do not overlap.
impl Compositor {
    /// A compositor of an empty page: a view of 1 to 2048 pixels a side, tiles of 16 to 256, a premultiplied background
    /// 0xRRGGBBAA, and how many bytes the images of tiles may take beside those that the last draw used.
    pub fn new(w: u32, h: u32, tile: u32, background: u32, budget: usize) -> Result<Compositor, Error> {
        let found = unsafe { cc_version() };
        if found != VERSION {
            return Err(Error::Version(found));
        }
        let page = Compositor {
            handle: UnsafeCell::new(Handle { at: ptr::null_mut() }),
        };
        answer(unsafe { cc_new(page.handle.get(), w, h, tile, background, budget) })?;
        Ok(page)
    }

    /// Starts the main page anew, so that all ids are free. The active page is shown until the next commit.
    pub fn reset(&mut self, w: u32, h: u32, tile: u32) -> Result<(), Error> {
        answer(unsafe { cc_reset(self.handle.get(), w, h, tile) })
    }

    /// Shows what the commands made of the main page.
    pub fn commit(&mut self) -> Result<(), Error> {
        answer(unsafe { cc_commit(self.handle.get()) })
    }

    /// Scrolls the active page as far as the scroller's range allows, and tells how far.
    pub fn scroll(&mut self, scroller: u32, dx: i32, dy: i32) -> Result<(i32, i32), Error> {
        let mut by = (0, 0);
        answer(unsafe { cc_scroll(self.handle.get(), scroller, dx, dy, &mut by.0, &mut by.1) })?;
        Ok(by)
    }

    /// Scrolls what lies under a point, and tells what none of the scrollers took.
    pub fn wheel(&mut self, x: i32, y: i32, dx: i32, dy: i32) -> Result<(i32, i32), Error> {
        let mut rest = (0, 0);
        answer(unsafe { cc_wheel(self.handle.get(), x, y, dx, dy, &mut rest.0, &mut rest.1) })?;
        Ok(rest)
    }

    /// Where a scroller of the active page stands; (0, 0) if there is none.
    pub fn offset(&self, scroller: u32) -> (i32, i32) {
        let mut at = (0, 0);
        unsafe { cc_offset(self.handle.get(), scroller, &mut at.0, &mut at.1) };
        at
    }

    /// The topmost layer at a point; 0 if there is none.
    pub fn target(&self, x: i32, y: i32) -> Result<u32, Error> {
        let mut layer = 0;
        answer(unsafe { cc_target(self.handle.get(), x, y, &mut layer) })?;
        Ok(layer)
    }

    /// Whether a draw may change the frame.
    pub fn is_changed(&self) -> bool {
        let mut changed = 1;
        unsafe { cc_is_changed(self.handle.get(), &mut changed) };
        changed != 0
    }

    /// Draws the active page. The rows outside of the answer are as they were.
    pub fn draw(&mut self) -> Result<Range<u32>, Error> {
        let mut rows = 0..0;
        answer(unsafe { cc_draw(self.handle.get(), &mut rows.start, &mut rows.end) })?;
        Ok(rows)
    }

    /// The rects of the frame outside of which the last draw left it as it was.
    pub fn damage(&self) -> Vec<Rect> {
        let (mut one, mut count) = ([RectOfC { x: 0, y: 0, w: 0, h: 0 }], 0);
        unsafe { cc_damage(self.handle.get(), one.as_mut_ptr(), 0, &mut count) };
        let mut rects = vec![one[0]; count];
        if count > 0 {
            unsafe { cc_damage(self.handle.get(), rects.as_mut_ptr(), rects.len(), &mut count) };
        }
        rects.iter().map(|r| (r.x, r.y, r.w, r.h)).collect()
    }

    /// The frame's width and height.
    pub fn size(&self) -> (u32, u32) {
        let mut size = (0, 0);
        unsafe { cc_size(self.handle.get(), &mut size.0, &mut size.1) };
        size
    }

    /// Copies rows of the frame into a buffer whose rows begin `stride` bytes apart.
    pub fn copy(&self, order: Order, rows: Range<u32>, stride: usize, to: &mut [u8]) -> Result<(), Error> {
        let (room, bytes) = (to.as_mut_ptr(), to.len());
        answer(unsafe { cc_copy(self.handle.get(), order as u32, rows.start, rows.end, stride, room, bytes) })
    }

    /// Frees the images of tiles that the last draw did not use.
    pub fn trim(&mut self) {
        unsafe { cc_trim(self.handle.get()) };
    }

    fn edit(&mut self, op: u32, fields: &[i32], rgba: u32, pixels: &[u8]) -> Result<(), Error> {
        let mut fault = FaultOfC {
            why: 0,
            field: 0,
            value: 0,
            limit: 0,
        };
        let status = unsafe {
            cc_edit(
                self.handle.get(),
                op,
                fields.as_ptr(),
                fields.len(),
                rgba,
                pixels.as_ptr(),
                pixels.len(),
                &mut fault,
            )
        };
        answer_of_edit(status, &fault)
    }
}

/// The commands, which change the main page.
impl Compositor {
    // What follows is made by tools/command_fields.py.
    /// Adds a transform: the translation of its parent, plus `(x, y)`, minus the offset of the scroller, if it names
    /// one.
    pub fn add_transform(&mut self, id: i32, parent: i32, at: (i32, i32), scroller: i32) -> Result<(), Error> {
        self.edit(1, &[id, parent, at.0, at.1, scroller], 0, &[])
    }

    /// Gives a transform another `(x, y)`.
    pub fn set_transform(&mut self, id: i32, at: (i32, i32)) -> Result<(), Error> {
        self.edit(2, &[id, at.0, at.1], 0, &[])
    }

    /// Adds a clip: a rect that stands in the space of a transform, cut by the clips above it.
    pub fn add_clip(&mut self, id: i32, parent: i32, transform: i32, rect: Rect) -> Result<(), Error> {
        self.edit(3, &[id, parent, transform, rect.0, rect.1, rect.2, rect.3], 0, &[])
    }

    /// Gives a clip another rect.
    pub fn set_clip(&mut self, id: i32, rect: Rect) -> Result<(), Error> {
        self.edit(4, &[id, rect.0, rect.1, rect.2, rect.3], 0, &[])
    }

    /// Adds an effect.
    pub fn add_effect(&mut self, id: i32, parent: i32, opacity: i32) -> Result<(), Error> {
        self.edit(5, &[id, parent, opacity], 0, &[])
    }

    /// Gives an effect another opacity.
    pub fn set_opacity(&mut self, id: i32, opacity: i32) -> Result<(), Error> {
        self.edit(6, &[id, opacity], 0, &[])
    }

    /// Adds a scroller, whose main value is (0, 0).
    pub fn add_scroller(&mut self, id: i32, parent: i32, most: (i32, i32)) -> Result<(), Error> {
        self.edit(7, &[id, parent, most.0, most.1], 0, &[])
    }

    /// Gives a scroller another range, and clamps its main value to it.
    pub fn set_range(&mut self, id: i32, most: (i32, i32)) -> Result<(), Error> {
        self.edit(8, &[id, most.0, most.1], 0, &[])
    }

    /// Adds to a scroller's main value, and clamps it to the range.
    pub fn scroll_by(&mut self, id: i32, by: (i32, i32)) -> Result<(), Error> {
        self.edit(9, &[id, by.0, by.1], 0, &[])
    }

    /// Sets a scroller's main value, clamped to the range.
    pub fn scroll_to(&mut self, id: i32, at: (i32, i32)) -> Result<(), Error> {
        self.edit(10, &[id, at.0, at.1], 0, &[])
    }

    /// Adds a layer with an empty display list, so that it has this place.
    #[allow(clippy::too_many_arguments)]
    pub fn add_layer(
        &mut self,
        id: i32,
        at: i32,
        transform: i32,
        clip: i32,
        effect: i32,
        size: (i32, i32),
        colour: u32,
    ) -> Result<(), Error> {
        self.edit(11, &[id, at, transform, clip, effect, size.0, size.1], colour, &[])
    }

    /// Takes a layer out for good: no later layer has its id.
    pub fn remove_layer(&mut self, id: i32) -> Result<(), Error> {
        self.edit(12, &[id], 0, &[])
    }

    /// Gives a layer another size; its display list stays.
    pub fn resize_layer(&mut self, id: i32, size: (i32, i32)) -> Result<(), Error> {
        self.edit(13, &[id, size.0, size.1], 0, &[])
    }

    /// Gives a layer another background colour.
    pub fn set_colour(&mut self, id: i32, colour: u32) -> Result<(), Error> {
        self.edit(14, &[id], colour, &[])
    }

    /// Takes a layer out of the list and inserts it at this place of the others.
    pub fn move_layer(&mut self, id: i32, at: i32) -> Result<(), Error> {
        self.edit(15, &[id, at], 0, &[])
    }

    /// Sets the viewport and the tile size.
    pub fn set_view(&mut self, size: (i32, i32), tile: i32) -> Result<(), Error> {
        self.edit(16, &[size.0, size.1, tile], 0, &[])
    }

    /// Removes an item of a layer's display list.
    pub fn remove_item(&mut self, layer: i32, at: i32) -> Result<(), Error> {
        self.edit(17, &[layer, at], 0, &[])
    }

    /// Inserts an item into a layer's display list, so that it has this place.
    pub fn insert_rect(&mut self, layer: i32, at: i32, rect: Rect, colour: u32) -> Result<(), Error> {
        self.edit(18, &[layer, at, rect.0, rect.1, rect.2, rect.3], colour, &[])
    }

    /// Puts another item in the place of one of a layer's display list.
    pub fn replace_rect(&mut self, layer: i32, at: i32, rect: Rect, colour: u32) -> Result<(), Error> {
        self.edit(19, &[layer, at, rect.0, rect.1, rect.2, rect.3], colour, &[])
    }

    /// Inserts an item into a layer's display list, so that it has this place. Red, green, blue and alpha of each
    /// pixel, premultiplied, row by row.
    pub fn insert_bitmap(&mut self, layer: i32, at: i32, rect: Rect, pixels: &[u8]) -> Result<(), Error> {
        self.edit(20, &[layer, at, rect.0, rect.1, rect.2, rect.3], 0, pixels)
    }

    /// Puts another item in the place of one of a layer's display list. Red, green, blue and alpha of each pixel,
    /// premultiplied, row by row.
    pub fn replace_bitmap(&mut self, layer: i32, at: i32, rect: Rect, pixels: &[u8]) -> Result<(), Error> {
        self.edit(21, &[layer, at, rect.0, rect.1, rect.2, rect.3], 0, pixels)
    }
    // The end of what is made.
}

impl Drop for Compositor {
    fn drop(&mut self) {
        unsafe { cc_free(self.handle.get()) }
    }
}
