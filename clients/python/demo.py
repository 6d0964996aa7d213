#!/usr/bin/env python3
"""The page of examples/embed/demo.c from Python: it leaves the same pictures.

usage: demo.py FOLDER
"""
import pathlib
import sys

import cc

WIDTH, HEIGHT = 160, 120
LIST, HEADER, CARD, BADGE = 1, 2, 3, 4
ROWS, CARDS = 1, 2


def build(page):
    page.add_scroller(1, 0, 400)
    page.add_transform(ROWS, y=20, scroller=1)
    page.add_transform(CARDS, x=90, y=60)
    page.add_clip(1, (0, 20, WIDTH, HEIGHT - 20))
    page.add_effect(1, 160)
    page.add_layer(LIST, 0, transform=ROWS, clip=1, w=WIDTH, h=500)
    page.add_layer(HEADER, 1, w=WIDTH, h=20)
    page.add_layer(CARD, 2, transform=CARDS, effect=1, w=60, h=45)
    page.add_layer(BADGE, 3, transform=CARDS, effect=1, w=60, h=45)
    for row in range(20):
        page.insert_rect(LIST, row, (0, 25 * row, WIDTH, 25), 0xCDD7E1FF if row % 2 else 0xF0F0ECFF)
    page.insert_rect(HEADER, 0, (0, 0, WIDTH, 20), 0x283C78FF)
    page.insert_rect(CARD, 0, (0, 0, 45, 30), 0xC83C28FF)
    page.insert_rect(BADGE, 0, (15, 15, 45, 30), 0x3CA03CFF)


def picture(page, folder, name):
    rows = page.draw()
    pixels = page.pixels()
    rgb = bytes(byte for at, byte in enumerate(pixels) if at % 4 < 3)
    (folder / (name + ".ppm")).write_bytes(b"P6\n%d %d\n255\n" % (WIDTH, HEIGHT) + rgb)
    print(f"{name}: rows {rows[0]} to {rows[1]}, {page.damage()}")


def refused(call, *words):
    try:
        call(*words)
    except cc.Refused as fault:
        return str(fault)
    sys.exit("demo.py: a command was taken that had to be refused")


def main():
    folder = pathlib.Path(sys.argv[1] if len(sys.argv) > 1 else ".")
    with cc.Compositor(WIDTH, HEIGHT, 32) as page:
        build(page)
        icon = bytes(byte for i in range(12 * 12) for byte in (255 - i, i, 90, 255))
        page.insert_bitmap(HEADER, 1, (4, 4, 12, 12), icon)
        page.commit()
        picture(page, folder, "built")
        print("scrolled by", page.scroll(1, 0, 65))
        picture(page, folder, "scrolled")
        picture(page, folder, "again")
        print("the wheel left", page.wheel(20, 60, 0, 1000), "and the list stands at", page.offset(1))
        picture(page, folder, "end")
        print("under 120, 80: layer", page.target(120, 80))
        print("a second effect 1:", refused(page.add_effect, 1, 9))
        print("a far transform:", refused(page.set_transform, CARDS, 70000, 0))
        page.set_transform(CARDS, 10, 30)
        page.set_opacity(1, 255)
        page.replace_rect(LIST, 17, (0, 25 * 17, WIDTH, 25), 0xFFCC00FF)
        print("before the commit a draw has", "work" if page.is_changed else "no work")
        page.commit()
        picture(page, folder, "changed")
        page.reset(WIDTH, HEIGHT, 32)
        build(page)
        page.commit()
        picture(page, folder, "rebuilt")


if __name__ == "__main__":
    main()
