#!/usr/bin/env python3
"""Compares what pclmin writes of a page with what clients send of it, in bytes and in processor time, and prints a table.

    python3 bench/smallest.py PCLMIN PLAIN FOLDER

The pages are bitmaps of 7.47 by 10 inches, a page of text as ghostscript paints it, rings as a line drawing, and a smooth
picture of greys dithered by error diffusion, at 300 and at 600 dots per inch. Each client gets the bitmap, ghostscript as
PostScript of it; pclmin and the plain program get what `pbmtolj` sends of it plain. A time is the processor's, of the user
and of the system, the least of 11 runs in turn. It fails where the two programs write different bytes, and tells whether the
dots of each job are those of the bitmap, wherever they lie on the page. The moves by registration offsets that ghostscript
sends are left out of the jobs for that, since pclmin refuses them. Needs netpbm, ghostscript and graphicsmagick.
"""

import math
import os
import re
import subprocess
import sys

sys.dont_write_bytecode = True
import pbm

RUNS = 11
COMPRESSIONS = {"plain": [], "packbits": ["-packbits"], "delta": ["-delta"], "compress": ["-compress"]}
WORDS = "a site on a slow line sends the dots of each page and not its fonts so that every byte of a job counts twice".split()


# ---- the pages

def size_at(dpi):
    return 2240 * dpi // 300, 10 * dpi


def without_comments(image, name):
    """Writes an image as a PBM file as pbm.py reads it."""
    with open(name, "wb") as out:
        subprocess.run(["pamtopnm"], input=image, stdout=out, check=True)
    return name


def text_page(folder, dpi):
    """A page of lines in Times, painted by ghostscript."""
    source = os.path.join(folder, "text.ps")
    with open(source, "w") as out:
        out.write("%!PS\n/Times-Roman findfont 11 scalefont setfont\n")
        for line in range(56):
            words = " ".join(WORDS[(7 * line + 5 * word) % len(WORDS)] for word in range(15))
            out.write("24 %d moveto (%s) show\n" % (690 - 12 * line, words))
        out.write("showpage\n")
    name = os.path.join(folder, "text-%d.pbm" % dpi)
    size = "-g%dx%d" % size_at(dpi)
    command = ["gs", "-q", "-dBATCH", "-dNOPAUSE", "-sDEVICE=pbmraw", "-r%d" % dpi, size, "-o", "-", source]
    return without_comments(subprocess.run(command, stdout=subprocess.PIPE, check=True).stdout, name)


def drawn(folder, name, dpi, is_inked):
    width, height = size_at(dpi)
    rows = [int("".join("01"[is_inked(x, y)] for x in range(width)), 2) for y in range(height)]
    path = os.path.join(folder, "%s-%d.pbm" % (name, dpi))
    pbm.write(path, (width, height, rows))
    return path


def rings(dpi):
    thick = 9000 * (dpi // 300) ** 2
    return lambda x, y: (x * x + y * y) // thick % 2 == 0


def photograph(folder, dpi):
    """Greys that change smoothly, dithered by netpbm's error diffusion."""
    width, height = size_at(dpi)
    across = [math.sin(9 * x / width) + 0.5 * math.sin(31 * x / width) for x in range(width)]
    down = [math.cos(7 * y / height) + 0.5 * math.sin(23 * y / height) for y in range(height)]
    grey = os.path.join(folder, "grey-%d.pgm" % dpi)
    with open(grey, "wb") as out:
        out.write(b"P5\n%d %d\n255\n" % (width, height))
        for y in range(height):
            out.write(bytes(int(128 + 40 * (across[x] + down[y])) for x in range(width)))
    name = os.path.join(folder, "photograph-%d.pbm" % dpi)
    command = ["pamditherbw", "-floyd", "-randomseed=1", grey]
    return without_comments(subprocess.run(command, stdout=subprocess.PIPE, check=True).stdout, name)


# ---- the runs

def spent(command, source, target):
    """Runs a command from a file to a file, and gives the processor time that it took."""
    with open(source, "rb") as stdin, open(target, "wb") as stdout:
        process = subprocess.Popen(command, stdin=stdin, stdout=stdout, stderr=subprocess.DEVNULL)
        _, status, usage = os.wait4(process.pid, 0)
    if status != 0:
        sys.exit("%s failed on %s" % (" ".join(command), source))
    return usage.ru_utime + usage.ru_stime


def postscript_of(bitmap):
    """PostScript that paints a bitmap dot for dot, half an inch from the left and from below."""
    width, height, rows = pbm.read(bitmap)
    dots = pbm.packed((width, height, rows))
    path = bitmap + ".ps"
    dpi = height // 10
    with open(path, "w") as out:
        out.write("%%!PS\n/line %d string def\n36 36 translate %g %g scale\n" % (len(dots[0]), 72 * width / dpi, 720))
        out.write("%d %d true [%d 0 0 %d 0 %d]\n" % (width, height, width, -height, height))
        out.write("{currentfile line readhexstring pop} imagemask\n")
        out.writelines(row.hex() + "\n" for row in dots)
        out.write("showpage\n")
    return path


def clients(bitmap, dpi):
    """The name of each client's job, its command, and the file that it reads."""
    for name, option in COMPRESSIONS.items():
        yield "pbmtolj, " + name, ["pbmtolj", "-quiet", "-resolution", str(dpi)] + option, bitmap
    for option in ("None", "RLE"):
        yield ("GraphicsMagick, " + option,
               ["gm", "convert", "-density", "%dx%d" % (dpi, dpi), "-compress", option, bitmap, "pcl:-"], bitmap)
    source = postscript_of(bitmap)
    for device in ("ljet2p", "ljet3", "ljet4"):
        if device == "ljet4" or dpi == 300:
            yield ("ghostscript, " + device,
                   ["gs", "-q", "-dBATCH", "-dNOPAUSE", "-sPAPERSIZE=letter", "-sDEVICE=" + device, "-r%d" % dpi, "-o", "-",
                    source], source)


# ---- the dots

def trimmed(bitmap):
    """The rows from the first inked one to the last, without the white columns on the right."""
    _, _, rows = pbm.read(bitmap)
    inked = [place for place, row in enumerate(rows) if row]
    rows = rows[inked[0]:inked[-1] + 1]
    together = 0
    for row in rows:
        together |= row
    right = (together & -together).bit_length() - 1
    return [row >> right for row in rows]


def has_dots(program, job, dpi, wanted):
    """Whether the dots of a job are those of the bitmap."""
    with open(job, "rb") as source:
        moved = re.sub(rb"\x1b&l-?\d+u-?\d+Z", b"", source.read())
    page = job + ".pbm"
    with open(page, "wb") as out:
        subprocess.run([program, "pbm", "--page", "1", "--dpi", str(dpi)], input=moved, stdout=out, check=True)
    return trimmed(page) == wanted


# ---- the table

def row(cells):
    print("| " + " | ".join(str(cell) for cell in cells) + " |", flush=True)


def compare(programs, bitmap, name, dpi, folder):
    jobs = []
    for client, command, source in clients(bitmap, dpi):
        job = os.path.join(folder, "%s-%d-%d.pcl" % (name, dpi, len(jobs)))
        jobs.append((client, command, source, job, []))
    plain_job = jobs[0][3]
    written = [os.path.join(folder, "%s-%d-%s" % (name, dpi, which)) for which in ("pclmin", "plain")]
    again = [("pclmin min", [programs[0], "min", "--dpi", str(dpi)], plain_job, written[0], []),
             ("plain program", [programs[1], "min", "--dpi", str(dpi)], plain_job, written[1], [])]
    for _ in range(RUNS):
        for _, command, source, target, seconds in jobs + again:
            seconds.append(spent(command, source, target))
    with open(written[0], "rb") as one, open(written[1], "rb") as other:
        if one.read() != other.read():
            sys.exit("%s at %d: the programs write different bytes" % (name, dpi))
    wanted = trimmed(bitmap)
    least = min(again[0][4])
    for client, _, _, target, seconds in jobs + again:
        dots = "the same" if has_dots(programs[0], target, dpi, wanted) else "others"
        times = ["%.3f" % min(seconds), "%.2f" % (least / min(seconds))]
        row([name, dpi, client, "{:,}".format(os.path.getsize(target)), dots] + times)


def main(arguments):
    if len(arguments) != 3:
        sys.exit(__doc__)
    programs, folder = arguments[:2], arguments[2]
    os.makedirs(folder, exist_ok=True)
    row(["Page", "dpi", "Written by", "Bytes", "Dots", "Processor, s", "pclmin's time over it"])
    row(["---", "---:", "---", "---:", "---", "---:", "---:"])
    for dpi in (300, 600):
        compare(programs, text_page(folder, dpi), "text", dpi, folder)
        compare(programs, drawn(folder, "drawing", dpi, rings(dpi)), "drawing", dpi, folder)
        compare(programs, photograph(folder, dpi), "photograph", dpi, folder)


main(sys.argv[1:])
