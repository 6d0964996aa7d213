//! The page of examples/embed/demo.c from Rust: it leaves the same pictures in the folder that it is given.

use cc_compositor::{Compositor, Error, Fault, Order};
use std::fs;
use std::path::{Path, PathBuf};

const WIDTH: i32 = 160;
const HEIGHT: i32 = 120;
const LIST: i32 = 1;
const HEADER: i32 = 2;
const CARD: i32 = 3;
const BADGE: i32 = 4;
const ROWS: i32 = 1;
const CARDS: i32 = 2;

fn build(page: &mut Compositor) -> Result<(), Error> {
    page.add_scroller(1, 0, (0, 400))?;
    page.add_transform(ROWS, 0, (0, 20), 1)?;
    page.add_transform(CARDS, 0, (90, 60), 0)?;
    page.add_clip(1, 0, 0, (0, 20, WIDTH, HEIGHT - 20))?;
    page.add_effect(1, 0, 160)?;
    page.add_layer(LIST, 0, ROWS, 1, 0, (WIDTH, 500), 0)?;
    page.add_layer(HEADER, 1, 0, 0, 0, (WIDTH, 20), 0)?;
    page.add_layer(CARD, 2, CARDS, 0, 1, (60, 45), 0)?;
    page.add_layer(BADGE, 3, CARDS, 0, 1, (60, 45), 0)?;
    for row in 0..20 {
        let colour = if row % 2 == 1 { 0xcdd7e1ff } else { 0xf0f0ecff };
        page.insert_rect(LIST, row, (0, 25 * row, WIDTH, 25), colour)?;
    }
    page.insert_rect(HEADER, 0, (0, 0, WIDTH, 20), 0x283c78ff)?;
    page.insert_rect(CARD, 0, (0, 0, 45, 30), 0xc83c28ff)?;
    page.insert_rect(BADGE, 0, (15, 15, 45, 30), 0x3ca03cff)
}

fn picture(page: &mut Compositor, folder: &Path, name: &str) -> Result<(), Box<dyn std::error::Error>> {
    let rows = page.draw()?;
    let mut pixels = vec![0; 4 * WIDTH as usize * HEIGHT as usize];
    page.copy(Order::Rgba, 0..HEIGHT as u32, 4 * WIDTH as usize, &mut pixels)?;
    let mut file = format!("P6\n{WIDTH} {HEIGHT}\n255\n").into_bytes();
    file.extend(pixels.chunks(4).flat_map(|pixel| pixel[..3].iter()));
    fs::write(folder.join(format!("{name}.ppm")), file)?;
    println!("{name}: rows {rows:?}, {:?}", page.damage());
    Ok(())
}

fn main() -> Result<(), Box<dyn std::error::Error>> {
    let folder = PathBuf::from(std::env::args().nth(1).unwrap_or_else(|| ".".into()));
    let mut page = Compositor::new(WIDTH as u32, HEIGHT as u32, 32, 0xffffffff, 64 << 20)?;
    build(&mut page)?;
    let icon: Vec<u8> = (0..144).flat_map(|i: u8| [255 - i, i, 90, 255]).collect();
    page.insert_bitmap(HEADER, 1, (4, 4, 12, 12), &icon)?;
    page.commit()?;
    picture(&mut page, &folder, "built")?;
    println!("scrolled by {:?}", page.scroll(1, 0, 65)?);
    picture(&mut page, &folder, "scrolled")?;
    picture(&mut page, &folder, "again")?;
    println!(
        "the wheel left {:?}, the list stands at {:?}",
        page.wheel(20, 60, 0, 1000)?,
        page.offset(1)
    );
    picture(&mut page, &folder, "end")?;
    println!("under 120, 80: layer {}", page.target(120, 80)?);
    assert_eq!(page.add_effect(1, 0, 9), Err(Error::Refused(Fault::IdUsed)));
    assert_eq!(
        page.set_transform(CARDS, (70000, 0)),
        Err(Error::Refused(Fault::OutOfRange {
            value: 70000,
            limit: 65536
        }))
    );
    page.set_transform(CARDS, (10, 30))?;
    page.set_opacity(1, 255)?;
    page.replace_rect(LIST, 17, (0, 25 * 17, WIDTH, 25), 0xffcc00ff)?;
    assert!(!page.is_changed());
    page.commit()?;
    picture(&mut page, &folder, "changed")?;
    page.reset(WIDTH as u32, HEIGHT as u32, 32)?;
    build(&mut page)?;
    page.commit()?;
    picture(&mut page, &folder, "rebuilt")
}
