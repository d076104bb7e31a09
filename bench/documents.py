#!/usr/bin/env python3
"""Tells how many bytes documents take as they are sent, as the least raster and as `shrink` writes them, and in what time and memory.

    bench/documents.py PROGRAM [WORD..]

PROGRAM is a built pclmin. It prints the rows of the table of bench/README.md, "Smaller jobs", where `--drivers`
stands for `shrink` with that option. Each result is compared with the job by
`same`, what `shrink` writes by `same --asked`; the status is 1 if one isn't the same, or if `shrink` writes more than the job or the
least raster has. With WORDs only documents are made whose names have all of these. Times are the processor's, the least of RUNS. The
memory is the peak that GNU time tells of one more run: what wait4 tells of a child has in it what this script holds itself.

The manual is that of bash, as groff sets it for Letter paper; dvilj prints docs/LANGUAGE.md in groff's fonts for TeX, and the two
pages of document.tex. The invoice, the table of 40 by 8 cells, the label with a bar code, the spreadsheet, the ten letters and the
photograph are written here, other documents by clients.py.

Two columns are of image files of the same pages without loss, a file for each page: TIFF with Group 4 coding, as faxes have it, by
netpbm, and JB2 by cjb2 of DjVu.

Needs the manual page of bash, groff, ghostscript, texlive-binaries, texlive-base, netpbm, djvulibre-bin, gzip, xz and GNU time.
"""

import collections
import os
import subprocess
import sys
import tempfile

sys.dont_write_bytecode = True
import clients

RUNS = 3
DEVICES = {300: "ljet2p", 600: "fs600"}
MANUAL = "zcat -f \"$(man -w bash)\" | groff -man "
PREPARED = (
    MANUAL + "-Tps -P-pletter > manual.ps",
    MANUAL + "-Tdvi > manual.dvi",
    "for dpi in 300 600; do dvips -q -t letter -D $dpi -o manual-$dpi.ps manual.dvi; done",
    "{ printf '.ps 11\\n.vs 13\\n'; tr -cd 'A-Za-z0-9 .,;:\\n-' < ROOT/docs/LANGUAGE.md; echo; } | groff -Tdvi > text.dvi",
    "tex -interaction=batchmode ROOT/bench/document.tex",
    "for name in text document; do dvilj -q -e$name.pcl $name.dvi; done",
)

# What makes a page an image file.
IMAGES = ("pnmtotiff -g4 -quiet page.pbm > page.image", "cjb2 page.pbm page.image")

# The command writes the job to standard output.
Document = collections.namedtuple("Document", "name dpi command")
Run = collections.namedtuple("Run", "seconds memory")


# ---- the documents

def rule(left, bottom, right, top):
    return "%d %d moveto %d %d lineto stroke" % (left, bottom, right, top)


def shown(left, base, text):
    return "%d %d moveto (%s) show" % (left, base, text)


def font(name, points):
    return "/%s findfont %d scalefont setfont" % (name, points)


def invoice():
    """A head, a table of 18 items, their sum, and a line at the foot."""
    lines = [font("Times-Bold", 20), shown(60, 720, "INVOICE 2026-1187"), font("Times-Roman", 10), "0.75 setlinewidth"]
    for place, text in enumerate(("Example Trading Company Ltd.", "12 Long Street, 98765 Somewhere", "Telephone 0123 456789")):
        lines.append(shown(60, 700 - 12 * place, text))
    lines += ["60 180 492 380 rectstroke", rule(60, 540, 552, 540), *(rule(x, 180, x, 560) for x in (90, 330, 390, 460))]
    for left, text in ((64, "No."), (94, "Description"), (334, "Quantity"), (394, "Price"), (464, "Amount")):
        lines.append(shown(left, 546, text))
    for item in range(18):
        words = " ".join(clients.WORDS[(5 * item + 3 * place) % len(clients.WORDS)] for place in range(5))
        cells = (item + 1, words, 7 * item % 13 + 1, "%d.%02d" % (37 * item % 90 + 9, 17 * item % 100),
                 "%d.%02d" % (331 * item % 900 + 19, 71 * item % 100))
        lines += [shown(left, 526 - 18 * item, cell) for left, cell in zip((64, 94, 334, 394, 464), cells)]
    lines += [shown(390, 160, "Total"), shown(464, 160, "7,331.40"), rule(464, 155, 552, 155), rule(464, 152, 552, 152)]
    return lines + [rule(60, 100, 552, 100), shown(60, 88, "Example Trading Company Ltd., register 12345, bank 99 88 77 66"), "showpage"]


def table():
    """40 rows of 8 cells, a word and seven numbers in each."""
    lines = [font("Helvetica", 8), "0.5 setlinewidth"]
    lines += [rule(50, 60 + 16 * row, 562, 60 + 16 * row) for row in range(41)]
    lines += [rule(50 + 64 * column, 60, 50 + 64 * column, 700) for column in range(9)]
    for row in range(40):
        cells = [clients.WORDS[row % len(clients.WORDS)], *((7919 * row + 104729 * column) % 100000 for column in range(1, 8))]
        lines += [shown(54 + 64 * column, 65 + 16 * row, cell) for column, cell in enumerate(cells)]
    return lines + ["showpage"]


def label():
    """A framed address, and a bar code with its number."""
    lines = [font("Helvetica-Bold", 24), shown(72, 700, "PARCEL SERVICE"), font("Helvetica", 12)]
    lines += ["2 setlinewidth 60 480 300 260 rectstroke 1 setlinewidth", rule(60, 690, 360, 690), rule(60, 600, 360, 600)]
    lines += [shown(72, 660 - 16 * place, text) for place, text in enumerate(("Ms. A. Example", "12 Long Street", "98765 Somewhere"))]
    left = 80
    for number in range(44):
        width = 1.25 * (1 + 5 * number % 3)
        lines.append("%g 510 %g 72 rectfill" % (left, width))
        left += width + 1.25 * (1 + 7 * number % 4 // 2)
    return lines + [shown(140, 492, "1Z 999 AA1 01 2345 6784"), "showpage"]


def right_shown(edge, base, text):
    return "(%s) dup stringwidth pop %d exch sub %d moveto show" % (text, edge, base)


def spreadsheet():
    """56 rows of a name and 9 numbers, with the letters of columns, the numbers of rows, sums, and hairlines between the cells."""
    lines = [font("Helvetica", 7), "0.25 setlinewidth"]
    lines += [rule(36, 80 + 11 * row, 576, 80 + 11 * row) for row in range(59)]
    edges = [36, 56] + [120 + 48 * column for column in range(9)] + [576]
    lines += [rule(edge, 80, edge, 718) for edge in edges]
    lines += [shown((left + end) // 2 - 2, 710, chr(65 + place)) for place, (left, end) in enumerate(zip(edges[1:], edges[2:]))]
    sums = [0] * 9
    for row in range(56):
        base = 699 - 11 * row
        numbers = [(3571 * row + 7919 * column + row * row * column) % 90000 for column in range(1, 10)]
        sums = [total + number for total, number in zip(sums, numbers)]
        lines += [right_shown(53, base, str(row + 1)), shown(59, base, "%s %s" % (clients.WORDS[row % 21], clients.WORDS[7 * row % 23]))]
        lines += [right_shown(edge - 3, base, "%d.%02d" % divmod(number, 100)) for edge, number in zip(edges[3:], numbers)]
    lines += [font("Helvetica-Bold", 7), right_shown(53, 83, "57"), shown(59, 83, "Total")]
    return lines + [right_shown(edge - 3, 83, "%d.%02d" % divmod(total, 100)) for edge, total in zip(edges[3:], sums)] + ["showpage"]


def letterhead():
    """The head of a letter with a mark of curves, and its foot."""
    lines = ["gsave 90 714 translate 1.5 setlinewidth 0 0 26 0 360 arc stroke 0 0 20 30 330 arc fill"]
    lines += ["1 setgray 0 0 11 0 360 arc fill grestore", font("Times-Bold", 24), shown(126, 714, "Example Trading Company")]
    lines += [font("Times-Italic", 11), shown(126, 699, "Paper, ink and toner since 1898"), "1 setlinewidth"]
    lines += [rule(60, 680, 552, 680), font("Helvetica", 7)]
    for place, text in enumerate(("12 Long Street, 98765 Somewhere", "Telephone 0123 456789", "office@example.com")):
        lines.append(right_shown(552, 720 - 9 * place, text))
    lines += ["0.5 setlinewidth", rule(60, 66, 552, 66)]
    for left, texts in ((60, ("Example Trading Company Ltd.", "Register 12345, Somewhere")),
                        (230, ("Bank of Example", "Account 99 88 77 66")),
                        (400, ("Directors: A. Example, B. Sample", "Tax number 11/222/33333"))):
        lines += [shown(left, 56 - 9 * place, text) for place, text in enumerate(texts)]
    return lines


def letters():
    """Ten letters of a page, each with the same head and foot and another text."""
    lines = []
    for page in range(10):
        lines += letterhead() + [font("Times-Roman", 11)]
        name = "%s %s" % (clients.WORDS[page].title(), clients.WORDS[page + 9].title())
        address = (name, "%d Short Street" % (3 * page + 1), "54321 Elsewhere")
        lines += [shown(60, 640 - 14 * place, text) for place, text in enumerate(address)]
        lines += [right_shown(552, 580, "%d November 2026" % (page + 11)), font("Times-Bold", 11)]
        lines += [shown(60, 550, "Your order %d" % (4711 + 13 * page)), font("Times-Roman", 11)]
        for line in range(16 + page % 5):
            words = (clients.WORDS[(11 * line + 5 * word + 7 * page + line * word) % len(clients.WORDS)] for word in range(16))
            lines.append(shown(60, 526 - 14 * line, " ".join(words)))
        lines += [shown(60, 190, "Yours faithfully,"), shown(60, 130, "A. Example"), "showpage"]
    return lines


def height(x, y):
    """A number from 0 to 255 for a crossing of two lines, the same in each run."""
    number = (x * 374761393 + y * 668265263) & 0xFFFFFFFF
    number = (number ^ number >> 13) * 1274126177 & 0xFFFFFFFF
    return (number ^ number >> 16) & 255


def waves(x, y, length):
    """The height of a point between lines that are so far apart: that of the crossings around it, smoothed."""
    column, row = x // length, y // length
    right, down = (part * part * (3 - 2 * part) for part in (x % length / length, y % length / length))
    upper, lower = (height(column, line) * (1 - right) + height(column + 1, line) * right for line in (row, row + 1))
    return upper * (1 - down) + lower * down


def photograph():
    """450 by 450 greys in three inches: waves, and on these others, each half as long and half as high."""
    grey = (sum(waves(x, y, 128 >> octave) / 2 ** (octave + 1) for octave in range(7)) for y in range(450) for x in range(450))
    return ["gsave 198 400 translate 216 216 scale /shade 450 string def",
            "450 450 8 [450 0 0 -450 0 450] { currentfile shade readhexstring pop } image",
            "".join("%02x" % int(shade) for shade in grey), "grestore", "showpage"]


WRITTEN = {"invoice": invoice, "table": table, "label": label, "spreadsheet": spreadsheet, "letters": letters, "photograph": photograph}


def painted(dpi, document, options=""):
    return clients.painted(DEVICES[dpi], dpi, document, "-sPAPERSIZE=letter " + options)


def pages(count):
    """That many pages of the manual, from the second one on where it has them: the first has its head."""
    first = 2 if count < 87 else 1
    return "-dFirstPage=%d -dLastPage=%d" % (first, first + count - 1)


def documents():
    for dpi in DEVICES:
        for count in (1, 5, 20, 87):
            yield Document("manual, %d pages" % count if count > 1 else "manual, 1 page", dpi, painted(dpi, "manual", pages(count)))
        for count in (1, 20):
            name = "manual in TeX's fonts, " + ("%d pages" % count if count > 1 else "1 page")
            yield Document(name, dpi, painted(dpi, "manual-%d" % dpi, pages(count)))
        for name, title in (("form", "form with rules"), ("grey", "grey picture"), ("mixed", "mixed page"), ("invoice", "invoice"),
                            ("table", "table of 40 by 8 cells"), ("label", "label with a bar code"), ("spreadsheet", "spreadsheet"),
                            ("letters", "ten letters"), ("photograph", "photograph"), ("text", "page of text")):
            yield Document(title, dpi, painted(dpi, name))
        for name, title in (("text", "text by dvilj"), ("document", "TeX by dvilj")):
            yield Document(title, dpi, "cat ../%s.pcl" % name)


def prepare(folder):
    """Writes what the commands read, which run in a folder within this one."""
    clients.write_documents(folder)
    for name, lines in WRITTEN.items():
        clients.write_document(folder, name, lines())
    root = os.path.dirname(os.path.dirname(os.path.realpath(__file__)))
    for command in PREPARED:
        # dvilj ends with status 1 where it leaves a special out, as those of groff for colors: so statuses aren't looked at.
        subprocess.run(["bash", "-c", command.replace("ROOT", root)], cwd=folder, stdout=subprocess.DEVNULL, stderr=subprocess.DEVNULL)


# ---- one document

def seconds(command):
    """Runs a command, and gives the processor's time that it takes."""
    process = subprocess.Popen(command)
    _, status, usage = os.wait4(process.pid, 0)
    if status != 0:
        raise ValueError("%s ends with status %d" % (command[1], os.waitstatus_to_exitcode(status)))
    return usage.ru_utime + usage.ru_stime


def memory(command):
    """The most memory that a command holds."""
    told = subprocess.run(["/usr/bin/time", "-f", "%M", *command], stderr=subprocess.PIPE, check=True).stderr
    return int(told.split()[-1])


def run(command):
    return Run(min(seconds(command) for _ in range(RUNS)), memory(command))


def packed(name):
    """How many bytes a file has, and how many by gzip -9 and xz -9."""
    with open(name, "rb") as data:
        content = data.read()
    sizes = [len(subprocess.run([tool, "-9"], input=content, stdout=subprocess.PIPE, check=True).stdout) for tool in ("gzip", "xz")]
    return [len(content)] + sizes


def page_image(program, dpi, job, page):
    """A page of a job as PBM, if it has that page."""
    shown = subprocess.run([program, "pbm", "--page", str(page), "--dpi", str(dpi), job], stdout=subprocess.PIPE, stderr=subprocess.DEVNULL)
    return shown.stdout if shown.returncode == 0 else None


def images(program, folder, dpi, job):
    """How many bytes the pages of a job have as image files: by Group 4 coding, and by JB2."""
    sizes, page = [0] * len(IMAGES), 1
    while (bitmap := page_image(program, dpi, job, page)) is not None:
        with open(os.path.join(folder, "page.pbm"), "wb") as out:
            out.write(bitmap)
        for place, command in enumerate(IMAGES):
            subprocess.run(["bash", "-c", command], cwd=folder, check=True, stderr=subprocess.DEVNULL)
            sizes[place] += os.path.getsize(os.path.join(folder, "page.image"))
        page += 1
    return sizes


def fault_of(program, dpi, job, outs):
    """What doesn't hold, if anything."""
    for how, out in outs.items():
        asked = [] if how == "min" else ["--asked"]
        if subprocess.run([program, "same", *asked, "--dpi", str(dpi), job, out], stdout=subprocess.PIPE).stdout != b"same\n":
            return "%s: not the same" % how
    for how in ("shrink", "drivers"):
        if os.path.getsize(outs[how]) > min(os.path.getsize(job), os.path.getsize(outs["min"])):
            return "%s: longer than the job or its least raster" % how
    return None


def measured(program, folder, document):
    """The cells of the row of a document, and what doesn't hold, if anything."""
    os.makedirs(own := os.path.join(folder, "own"), exist_ok=True)
    job, least, smaller, drivers = (os.path.join(own, name + ".pcl") for name in ("job", "least", "smaller", "drivers"))
    with open(job, "wb") as out:
        subprocess.run(["bash", "-c", document.command], cwd=own, stdout=out, stderr=subprocess.DEVNULL, check=True)
    outs = {"min": least, "shrink": smaller}
    best = {}
    for how, out in outs.items():
        best[how] = run([program, how, "--dpi", str(document.dpi), "-o", out, job])
    outs["drivers"] = drivers
    subprocess.run([program, "shrink", "--drivers", "--dpi", str(document.dpi), "-o", drivers, job], check=True)
    sizes = packed(job) + packed(least) + [os.path.getsize(smaller), os.path.getsize(drivers)]
    times = ["%.1f" % (getattr(best["shrink"], what) / max(getattr(best["min"], what), 1e-3)) for what in Run._fields]
    part = "%.1f %%" % (100 * sizes[-2] / sizes[3])
    sizes += images(program, own, document.dpi, job)
    return [document.name, str(document.dpi)] + sizes + [part] + times, fault_of(program, document.dpi, job, outs)


def main(program, *words):
    program, faults = os.path.realpath(program), []
    clients.row(["Document", "dpi", "As sent", "`gzip`", "`xz`", "`min`", "`gzip`", "`xz`", "`shrink`", "`--drivers`", "Group 4", "JB2", "Of `min`",
                 "Time", "Memory"])
    clients.row(["---"] + ["---:"] * 14)
    with tempfile.TemporaryDirectory() as folder:
        prepare(folder)
        for document in documents():
            if set(words) <= set(("%s %d" % (document.name, document.dpi)).replace(",", "").split()):
                cells, fault = measured(program, folder, document)
                clients.row(cells)
                faults += ["%s at %d: %s" % (document.name, document.dpi, fault)] if fault else []
    print("\n".join(faults))
    return 1 if faults else 0


if __name__ == "__main__":
    if len(sys.argv) < 2:
        sys.exit(__doc__)
    sys.exit(main(*sys.argv[1:]))
