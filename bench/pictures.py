#!/usr/bin/env python3
"""Writes the pictures of the benchmark, as jobs or as the same programs in PostScript.

    bench/pictures.py NAME [job|postscript] >FILE      NAME is one of: squares large contours tiny glyphs clipped chart

All are for a page of 4,960 x 7,016 dots, and the same at each call. A job's words are names in PostScript too, so
the PostScript is the job behind definitions of its words: it runs the same loops and calls. Needs Python 3 only.
"""

import math
import random
import sys

WIDTH, HEIGHT = 4960, 7016

# Units are dots from the top left. Grey 255 is white, a path ends with its painting or clipping, fills are even-odd.
PROLOGUE = """%!PS
<< /PageSize [{width} {height}] >> setpagedevice
/adds /add load def  /takes /sub load def  /multiplies /mul load def  /divides /idiv load def
/copies /dup load def  /drops /pop load def  /swaps /exch load def
/is-less {{ lt {{ 1 }} {{ 0 }} ifelse }} bind def
/defines /def load def  /repeats /repeat load def
/when {{ exch 0 ne exch if }} bind def
/moves /moveto load def  /lines /lineto load def  /fills /eofill load def
/clips-by {{ eoclip newpath }} bind def
/greys {{ 255 div setgray }} bind def
/shifts /translate load def
/scales {{ 16 div dup scale }} bind def
/keeps /gsave load def  /back /grestore load def  /shows /showpage load def
0 {height} translate 1 -1 scale 0 setgray newpath
"""


def ring(points):
    words = []
    for i, (x, y) in enumerate(points):
        words += [round(x), round(y), "lines" if i else "moves"]
    return words


def rectangle(left, top, right, bottom):
    return ring([(left, top), (right, top), (right, bottom), (left, bottom)])


def blob(chance, x, y, radius, points, rough):
    """A closed curve around x, y, some waves laid over a circle."""
    waves = [(k, chance.uniform(0, 2 * math.pi), chance.uniform(0, rough / k)) for k in range(2, 8)]
    curve = []
    for i in range(points):
        turn = 2 * math.pi * i / points
        r = radius * (1 + sum(size * math.sin(k * turn + phase) for k, phase, size in waves))
        curve.append((max(0, x + r * math.cos(turn)), max(0, y + r * math.sin(turn))))
    return curve


def named(name, words):
    return ["/" + name, "{"] + words + ["}", "defines"]


def repeated(times, words):
    return [times, "{"] + words + ["}", "repeats"]


def kept(words):
    return ["keeps"] + words + ["back"]


def squares():
    """Three squares."""
    words = []
    for left, top, grey in [(400, 500, 0), (1500, 2500, 128), (2600, 4500, 64)]:
        words += [grey, "greys"] + rectangle(left, top, left + 2000, top + 2000) + ["fills"]
    return words + ["shows"]


def tiny():
    """20,000 tiny squares in two loops."""
    square = rectangle(0, 0, 12, 12) + ["fills"]
    row = kept(repeated(125, square + [38, 0, "shifts"]))
    return [40, 40, "shifts"] + repeated(160, row + [0, 43, "shifts"]) + ["shows"]


def letter(chance):
    """A shape like a letter, in quarters of dots: a round or straight outline, a hole, perhaps a foot."""
    width, height = chance.randint(90, 150), chance.randint(120, 220)
    narrow = lambda curve: [(x * width / height, y) for x, y in curve]
    words = ring(narrow(blob(chance, height / 2, 220 - height / 2, height / 2, chance.randint(14, 30), 0.15)))
    if chance.random() < 0.6:
        words += ring(narrow(blob(chance, height / 2, 220 - height / 2, height / 4, chance.randint(8, 16), 0.1)))
    if chance.random() < 0.5:
        words += rectangle(width * 3 // 4, 220 - height // 2, width * 3 // 4 + 24, 260)
    return words + ["fills", width + 34, 0, "shifts"]


def glyphs():
    """5,000 shapes like letters, of 52 kinds."""
    chance = random.Random(1)
    names = ["g" + a + b for a in "ab" for b in "abcdefghijklmnopqrstuvwxyz"]
    words = [4, "scales"]
    for name in names:
        words += named(name, letter(chance))
    words += [600, 600, "shifts"]
    left = 5000
    while left > 0:
        line = min(left, 98)
        words += kept([chance.choice(names) for _ in range(line)]) + [0, 480, "shifts"]
        left -= line
    return words + ["shows"]


def clipped():
    """200 large shapes under three clips in each other."""
    chance = random.Random(2)
    x, y = WIDTH // 2, HEIGHT // 2
    words = []
    for radius in (2900, 2500, 2200):
        words += ring(blob(chance, x, y, radius, 60, 0.1)) + ["clips-by"]
    return words + large()


def large():
    """200 large shapes over each other; needs the operators of the first stage alone."""
    chance = random.Random(4)
    words = []
    for _ in range(200):
        middle = (chance.randint(1200, WIDTH - 1200), chance.randint(1500, HEIGHT - 1500))
        words += [chance.randint(0, 240), "greys"] + ring(blob(chance, *middle, chance.randint(700, 1500), 80, 0.3)) + ["fills"]
    return words + ["shows"]


def digit(chance):
    """A digit of a sounding: an outline and a hole, of 17 points together."""
    return ring(blob(chance, 9, 13, 8, 11, 0.2)) + ring(blob(chance, 9, 13, 4, 6, 0.1)) + ["fills"]


def contour(chance, x, y, radius, points):
    """A line of depth as a band between two curves."""
    curve = blob(chance, x, y, radius, points, 0.35)
    inner = [(x + (px - x) * (1 - 5 / radius), y + (py - y) * (1 - 5 / radius)) for px, py in curve]
    return ring(curve) + ring(inner) + ["fills"]


def grid():
    """Lines of latitude and longitude."""
    upright = kept(repeated(24, rectangle(0, 0, 2, HEIGHT) + ["fills", 200, 0, "shifts"]))
    level = kept(repeated(34, rectangle(0, 0, WIDTH, 2) + ["fills", 0, 200, "shifts"]))
    return [160, "greys", 100, 100, "shifts"] + upright + level


def soundings(chance):
    """Depths of two digits each, in rows that are loops of a few named depths."""
    words = []
    depths = ["s-" + letter for letter in "abcdefghijkl"]
    for name in depths:
        words += named(name, digit(chance) + [18, 0, "shifts"] + digit(chance))
    rows = []
    for _ in range(65):
        some = [word for _ in range(4) for word in [chance.choice(depths), chance.randint(50, 60), chance.randint(0, 3), "shifts"]]
        rows += kept(repeated(15, some)) + [0, 102, "shifts"]
    return words + [0, "greys", 130, 130, "shifts"] + rows


def chart():
    """A sea chart: land, contours, a grid and soundings inside a frame."""
    chance = random.Random(3)
    frame = ring([(160, 80), (4800, 80), (4880, 160), (4880, 6856), (4800, 6936), (160, 6936), (80, 6856), (80, 160)])
    return frame + ["clips-by"] + land_and_contours(chance) + kept(grid()) + kept(soundings(chance)) + ["shows"]


def contours():
    """Land and contours alone; needs the operators of the first stage alone."""
    return land_and_contours(random.Random(3)) + ["shows"]


def land_and_contours(chance):
    words = []
    for grey in (235, 210, 190):
        middle = (chance.randint(1000, 4000), chance.randint(1000, 6000))
        words += [grey, "greys"] + ring(blob(chance, *middle, chance.randint(500, 900), 200, 0.4)) + ["fills"]
    words += [90, "greys"]
    for _ in range(134):
        middle = (chance.randint(600, 4400), chance.randint(600, 6400))
        words += contour(chance, *middle, chance.randint(100, 560), 50)
    return words


PICTURES = {"squares": squares, "large": large, "contours": contours, "tiny": tiny, "glyphs": glyphs, "clipped": clipped, "chart": chart}


def job_text(name):
    """The words in lines of ten."""
    words = [str(word) for word in PICTURES[name]()]
    return "".join(" ".join(words[i:i + 10]) + "\n" for i in range(0, len(words), 10))


def postscript_text(name):
    return PROLOGUE.format(width=WIDTH, height=HEIGHT) + job_text(name)


def main():
    if len(sys.argv) not in (2, 3) or sys.argv[1] not in PICTURES:
        sys.exit(__doc__)
    form = {"job": job_text, "postscript": postscript_text}[sys.argv[2] if len(sys.argv) == 3 else "job"]
    sys.stdout.write(form(sys.argv[1]))


if __name__ == "__main__":
    main()
