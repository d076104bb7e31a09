#!/usr/bin/env python3
"""Has jobs of real clients written again by `min` and by `shrink`, and tells whether each of them holds.

    bench/clients.py PROGRAM [WORD..]

PROGRAM is a built pclmin. The jobs are made anew in a temporary folder: documents by drivers, at their resolutions. A job is
tried at 300 and then at 600 dots per inch, until it is accepted. It holds then if what `shrink` writes is no longer than the
job, and if `same` says `same` of the job and what `min` writes, and `same --asked` of the job and what `shrink` writes. A job that
`shrink` alone accepts, by the drivers' profile, has no bytes by `min`. A refused one holds if both refuse it and write nothing, and in
the same words unless `min` refuses what the drivers' profile takes. The result is a table by client, with the bytes of the accepted
jobs, then each refusal, and `N of M hold`; the status is 1 if not all do. With WORDs only jobs whose names have all of these are made,
and each has its own row.

Needs ghostscript, cups, cups-filters, cups-ppdc, cups-ipp-utils, printer-driver-gutenprint, printer-driver-hpcups,
printer-driver-hpijs, netpbm, imagemagick, hp2xx, barcode, texlive-binaries, texlive-base and fop.
"""

import collections
import concurrent.futures
import math
import os
import re
import shutil
import subprocess
import sys
import tempfile

PROCESSORS, RESOLUTIONS = 2, (300, 600)
REFUSED = re.compile(r"pclmin: refused: (.+)")
# A refusal of the stated profile alone.
STATED = re.compile(r"(UnsupportedValue at \d+ &l[UZ]|UnsupportedCommand at \d+ (&lT|&kW|\*o[MQD]|\*rQ|\*bS)|FontHeader at \d+ \)sW)")
NEEDS = ("gs ppdc pbmtolj ppmtolj convert hp2xx barcode tex dvilj dvilj2p dvilj4 dvilj4l dvilj6 hpijs fop /usr/sbin/ippevepcl "
         "/usr/lib/cups/filter/rastertohp /usr/lib/cups/filter/gstoraster /usr/lib/cups/filter/hpcups "
         "/usr/lib/cups/filter/rastertogutenprint.5.3 /usr/lib/cups/driver/gutenprint.5.3")
WORDS = "the printer at the far end of a slow line waits for each byte of a page while its paper and its toner wait too".split()

Job = collections.namedtuple("Job", "client options document command")
# The bytes that `min` writes are None where it refuses the job.
Result = collections.namedtuple("Result", "job sent dpi least smaller refusal fault", defaults=(0, None, 0, None, None))


# ---- the documents

def text(page=0):
    """A page of 54 lines in Times at 11 points."""
    lines = ["/Times-Roman findfont 11 scalefont setfont"]
    for line in range(54):
        words = " ".join(WORDS[(7 * line + 5 * word + 3 * page + line * word) % len(WORDS)] for word in range(17))
        lines.append("72 %d moveto (%s) show" % (708 - 12 * line, words))
    return lines + ["showpage"]


def form():
    """A form: a frame, rules, boxes to tick, and a name at each."""
    lines = ["/Helvetica findfont 9 scalefont setfont 0.5 setlinewidth 54 72 504 648 rectstroke"]
    for line in range(24):
        base = 693 - 27 * line
        lines.append("54 %d moveto 558 %d lineto stroke 60 %d moveto (%d. %s) show" % (base, base, base + 9, line + 1, WORDS[line % 20]))
        lines += ["%d %d 9 9 rectstroke" % (360 + 36 * box, base + 9) for box in range(5)]
    return lines + ["1.5 setlinewidth 216 72 moveto 216 720 lineto 342 72 moveto 342 720 lineto stroke", "showpage"]


def shades(left, bottom, side):
    """A grey picture of 128 by 128 shades."""
    grey = ("%02x" % int(128 + 60 * math.sin(x / 17) + 60 * math.cos((y + x / 3) / 23)) for y in range(128) for x in range(128))
    return ["gsave %d %d translate %d dup scale /shade 128 string def" % (left, bottom, side),
            "128 128 8 [128 0 0 -128 0 128] { currentfile shade readhexstring pop } image", "".join(grey), "grestore"]


def mixed():
    """Text, a picture, a table of rules, and bars."""
    lines = text()[:26] + shades(72, 180, 200)
    for row in range(9):
        lines.append("300 %d moveto 540 %d lineto stroke 306 %d moveto (%s) show" % ((180 + 25 * row,) * 2 + (186 + 25 * row, WORDS[row])))
        lines.append("%g setgray 420 %d %d 12 rectfill 0 setgray" % (row / 10, 183 + 25 * row, 12 * row + 8))
    return lines + ["showpage"]


DOCUMENTS = {"text": text(), "form": form(), "grey": shades(72, 162, 468) + ["showpage"], "mixed": mixed(),
             "pages": text(1) + text(2) + text(3)}

# ---- the same for other clients

def letter():
    """Two pages of text and rules in TeX's fonts, few enough for dvilj4, which ends by a fault of its own where there are eleven."""
    lines = [r"\magnification=\magstep1", r"\centerline{\bf %s}\medskip\hrule\bigskip" % " ".join(WORDS[:5])]
    for page in range(2):
        for line in range(20):
            lines.append(r"\noindent " + " ".join(WORDS[(line + 7 * word + page) % len(WORDS)] for word in range(12)) + r"\par")
        lines.append(r"\vskip 12pt\vrule height 60pt width 1pt\quad\vrule height 8pt width 200pt\vfil\eject")
    return "\n".join(lines + [r"\bye"])


def formatted(pages):
    """A document of XSL-FO, of one page for each list of blocks."""
    blocks = "".join('<fo:block break-before="page">%s</fo:block>' % "".join(page) for page in pages)
    return ('<fo:root xmlns:fo="http://www.w3.org/1999/XSL/Format"><fo:layout-master-set><fo:simple-page-master master-name="page" '
            'page-width="8.5in" page-height="11in" margin="1in"><fo:region-body/></fo:simple-page-master></fo:layout-master-set>'
            '<fo:page-sequence master-reference="page"><fo:flow flow-name="xsl-region-body" font-family="Times" font-size="11pt">'
            '%s</fo:flow></fo:page-sequence></fo:root>' % blocks)


def lines_of(page):
    return ["<fo:block>%s</fo:block>" % " ".join(WORDS[(7 * line + 5 * word + 3 * page) % len(WORDS)] for word in range(15))
            for line in range(40)]


# Documents of FOP.
FORMATTED = {
    "text": formatted([lines_of(0)]), "pages": formatted([lines_of(1), lines_of(2), lines_of(3)]),
    "form": formatted([['<fo:block border="0.5pt solid black" padding="6pt">%d. %s</fo:block>' % (line + 1, WORDS[line])
                        for line in range(20)]]),
}
# FOP sends pages as rasters, not text in the printer's own fonts.
BITMAPS = ('<fop version="1.0"><renderers><renderer mime="application/x-pcl"><rendering>bitmap</rendering></renderer></renderers></fop>')


def write_document(folder, name, lines):
    """Writes a document as PostScript."""
    with open(os.path.join(folder, name + ".ps"), "w") as out:
        out.write("\n".join(["%!PS", "<< /PageSize [612 792] >> setpagedevice"] + lines) + "\n")


def write_documents(folder):
    """Writes the documents as PostScript."""
    for name, lines in DOCUMENTS.items():
        write_document(folder, name, lines)


def make_documents(folder):
    """Writes what the commands of the jobs read, each in a folder of its own within this one."""
    write_documents(folder)
    with open(os.path.join(folder, "drawing"), "w") as out:
        out.write("IN;SP1;PU400,400;PD4000,400,4000,3000,400,3000,400,400;PU1000,1000;PD3000,2500;PU2000,1700;CI600;PU;SP0;\n")
    for name, content in [("letter.tex", letter()), ("bitmaps.xml", BITMAPS)] + [(name + ".fo", FORMATTED[name]) for name in FORMATTED]:
        with open(os.path.join(folder, name), "w") as out:
            out.write(content)
    document = os.path.join(os.path.dirname(os.path.realpath(__file__)), "document.tex")
    for command in ("ppdc -d . /usr/share/cups/drv/sample.drv",
                    "ppdc -d hpcups /usr/share/cups/drv/hpcups.drv && cp hpcups/hp-laserjet_4050_series-pcl3.ppd hpcups.ppd",
                    "/usr/lib/cups/driver/gutenprint.5.3 cat gutenprint.5.3://pcl-g_5e/expert > gutenprint.ppd",
                    "tex -interaction=batchmode '%s'" % document, "tex -interaction=batchmode letter.tex"):
        subprocess.run(["bash", "-c", command], cwd=folder, check=True, stdout=subprocess.DEVNULL, stderr=subprocess.DEVNULL)


# ---- the clients: each job's command writes it to standard output

def painted(device, dpi, document, options=""):
    return "gs -q -dSAFER -dBATCH -dNOPAUSE -sDEVICE=%s -r%d %s -sOutputFile=- ../%s.ps" % (device, dpi, options, document)


def ghostscript():
    devices = {"laserjet": (75, 150, 300), "ljetplus": (75, 150, 300), "ljet2p": (75, 150, 300), "lj4dith": (300, 600), "fs600": (300, 600),
               "ljet3": RESOLUTIONS, "ljet4": RESOLUTIONS, "ljet4d": RESOLUTIONS, "hl1250": RESOLUTIONS, "deskjet": (300,),
               "djet500": (300,), "lj5gray": (300,), "pclm": (300,)}
    for device, resolutions in devices.items():
        for dpi in resolutions:
            for document in DOCUMENTS:
                yield Job("ghostscript " + device, str(dpi), document, painted(device, dpi, document))


def hpijs():
    options = ('-sIjsServer=hpijs -dIjsUseOutputFD -sDeviceManufacturer=HEWLETT-PACKARD "-sDeviceModel=%s" '
               "-sIjsParams=Quality:Quality=%d,Quality:ColorMode=0,Quality:MediaType=0,Quality:PenSet=0,Quality:FullBleed=0")
    for dpi, quality in ((300, 1), (600, 0)):
        for document in DOCUMENTS:
            yield Job("hpijs LaserJet", str(dpi), document, painted("ijs", dpi, document, options % ("HP LaserJet", quality)))
    yield Job("hpijs DeskJet", "300", "text", painted("ijs", 300, "text", options % ("DESKJET 600", 1)))


def hpcups():
    """hpcups for a LaserJet: all PPDs of its language `ljmono` send the same commands."""
    filters = "/usr/lib/cups/filter/gstoraster 1 user title 1 '%s' ../%s.ps | /usr/lib/cups/filter/hpcups 1 user title 1 '%s'"
    setting = "export PPD=../hpcups.ppd CONTENT_TYPE=application/postscript TMPDIR=. && "
    for dpi, mode in ((300, "Draft"), (600, "Normal")):
        for sides in ("", " Duplex=DuplexNoTumble"):
            for document in DOCUMENTS if not sides else ("pages",):
                options = "PageSize=Letter OutputMode=" + mode + sides
                command = setting + filters % (options, document, options)
                yield Job("hpcups LaserJet", "%d%s" % (dpi, sides and " two-sided"), document, command)


def cups():
    """The filters of CUPS; the number after the resolution is the method of row data."""
    space = "-dcupsBitsPerColor=%d -dcupsColorSpace=%d -dcupsColorOrder=0 -dcupsCompression=%d"
    for document in DOCUMENTS:
        for dpi, method in ((75, 2), (150, 2), (300, 0), (300, 1), (300, 2), (600, 2)):
            yield Job("CUPS rastertohp", "%d %d" % (dpi, method), document, painted("cups", dpi, document, space % (1, 3, method))
                      + " | PPD=../laserjet.ppd /usr/lib/cups/filter/rastertohp 1 user title 1 ''")
        for dpi, setting in ((150, 2), (300, 3), (600, 4)):  # what Gutenprint's PPD sets for these resolutions
            yield Job("Gutenprint", str(dpi), document, painted("cups", dpi, document, space % (8, 0, setting))
                      + " | PPD=../gutenprint.ppd /usr/lib/cups/filter/rastertogutenprint.5.3 1 user title 1 StpColorCorrection=Threshold")
        for dpi in RESOLUTIONS:
            yield Job("CUPS ippevepcl", str(dpi), document, painted("pwgraster", dpi, document, "-dcupsBitsPerColor=8 -dcupsColorSpace=18")
                      + " > page.pwg && CONTENT_TYPE=image/pwg-raster /usr/sbin/ippevepcl page.pwg")


def bitmaps():
    pbmtolj = [dpi + option for dpi in ("150", "300") for option in ("", " -packbits", " -delta", " -compress")] + ["600"]
    for document in ("text", "form", "grey", "mixed"):
        for options in pbmtolj:
            command = painted("pbmraw", int(options[:3]), document) + " | pbmtolj -quiet -resolution " + options
            yield Job("netpbm pbmtolj", options, document, command)
        for dpi in (150, 300):
            for compression in ("None", "RLE"):
                yield Job("ImageMagick", "%d %s" % (dpi, compression), document, painted("pbmraw", dpi, document) +
                          " > page.pbm && convert page.pbm -density %d -units PixelsPerInch -compress %s pcl:-" % (dpi, compression))
    yield Job("netpbm ppmtolj", "150", "mixed", painted("ppmraw", 150, "mixed") + " | ppmtolj -quiet -resolution 150")


def drawings():
    for options in ("75", "100", "150", "300", "75 -i -F", "100 -i -F", "150 -i -F", "300 -i -F", "300 -S 1"):
        yield Job("hp2xx", options, "drawing", "hp2xx -q -m pcl -d %s -f job ../drawing && cat job" % options)
    for encoding, options in (("39", "-P -n"), ("ean", "-P -n"), ("128", "-P -n"), ("ean", "-P")):
        yield Job("GNU barcode", options, encoding, "barcode -b 1234567 -e %s %s" % (encoding, options))
    for program in ("dvilj", "dvilj2p"):
        yield Job(program, "300", "TeX", "%s -q -ejob ../document.dvi && cat job" % program)
    for program, dpi in (("dvilj4", 600), ("dvilj4l", 300), ("dvilj6", 600)):
        for raw in ("", " -n"):  # characters without compression
            yield Job(program, "%d%s" % (dpi, raw), "letter", "%s -q%s -ejob ../letter.dvi && cat job" % (program, raw))


def formatters():
    for dpi in RESOLUTIONS:
        for document in FORMATTED:
            yield Job("Apache FOP", str(dpi), document, "fop -q -c ../bitmaps.xml -dpi %d -fo ../%s.fo -pcl job && cat job" % (dpi, document))
    yield Job("Apache FOP", "fonts", "text", "fop -q -fo ../text.fo -pcl job && cat job")


def all_jobs():
    return [job for client in (ghostscript, hpijs, hpcups, cups, bitmaps, drawings, formatters) for job in client()]


# ---- one job

def name_of(job):
    return " ".join(job[:3])


def written(program, how, dpi, job, out):
    """Has a job written again, and gives its refusal, if any."""
    run = subprocess.run([program, how, "--dpi", str(dpi), "-o", out, job], stderr=subprocess.PIPE, text=True)
    if run.returncode == 0:
        return None
    refused = REFUSED.fullmatch(run.stderr.strip())
    if run.returncode == 1 and refused and not os.path.exists(out):
        return refused.group(1)
    raise ValueError("%s ends with status %d: %s" % (how, run.returncode, run.stderr.strip()))


def again(program, job, outs):
    """Has a job written both ways, and gives the resolution at which `shrink` accepts it, or none and its refusal."""
    for dpi in RESOLUTIONS:
        least, smaller = (written(program, how, dpi, job, out) for how, out in outs.items())
        if least != smaller and not STATED.fullmatch(least or ""):
            raise ValueError("min and shrink end in different ways: %s, %s" % (least, smaller))
        if smaller is None:
            return dpi, None
    return 0, smaller


def fault_of(program, dpi, job, outs):
    """What doesn't hold of an accepted job, if anything."""
    for how, out in outs.items():
        if not os.path.exists(out):
            continue
        asked = ["--asked"] if how == "shrink" else []
        run = subprocess.run([program, "same", *asked, "--dpi", str(dpi), job, out], stdout=subprocess.PIPE, stderr=subprocess.STDOUT,
                             text=True)
        if run.returncode != 0 or run.stdout != "same\n":
            return "%s: %s" % (how, run.stdout.strip())
    return "shrink: longer than it came" if os.path.getsize(outs["shrink"]) > os.path.getsize(job) else None


def tried(program, folder, number, job):
    os.mkdir(own := os.path.join(folder, str(number)))
    path, least, smaller = (os.path.join(own, name) for name in ("job.pcl", "least.pcl", "smaller.pcl"))
    outs = {"min": least, "shrink": smaller}
    with open(path, "wb") as out:
        run = subprocess.run(["bash", "-o", "pipefail", "-c", job.command], cwd=own, stdout=out, stderr=subprocess.DEVNULL)
    sent = os.path.getsize(path)
    if run.returncode != 0 or sent == 0:
        return Result(job, sent, fault="the client fails")
    try:
        dpi, refusal = again(program, path, outs)
    except ValueError as fault:
        return Result(job, sent, fault=str(fault))
    if refusal:
        return Result(job, sent, refusal=refusal)
    least = os.path.getsize(least) if os.path.exists(least) else None
    return Result(job, sent, dpi, least, os.path.getsize(smaller), fault=fault_of(program, dpi, path, outs))


# ---- the table

def total(results, size):
    """The sum of a number of bytes, or a dash where one of them is missing."""
    sizes = [getattr(result, size) for result in results]
    return "–" if None in sizes else sum(sizes)


def row(cells):
    print("| " + " | ".join("{:,}".format(cell) if isinstance(cell, int) else cell for cell in cells) + " |")


def table(results, named):
    groups = collections.defaultdict(list)
    for result in results:
        groups[named(result.job)].append(result)
    row(["Client", "Jobs", "Accepted", "As sent", "`min`", "`shrink`"])
    row(["---"] + ["---:"] * 5)
    for name, group in groups.items():
        read = [result for result in group if result.dpi]
        row([name, len(group), len(read)] + [total(read, size) for size in ("sent", "least", "smaller")])


def main(program, *words):
    missing = [name for name in NEEDS.split() if not shutil.which(name)]
    if missing:
        sys.exit("not installed: " + " ".join(missing))
    jobs = [job for job in all_jobs() if set(words) <= set(name_of(job).split())]
    with tempfile.TemporaryDirectory() as folder:
        make_documents(folder)
        with concurrent.futures.ThreadPoolExecutor(PROCESSORS) as pool:
            results = list(pool.map(lambda each: tried(os.path.realpath(program), folder, *each), enumerate(jobs)))
    table(results, name_of if words else lambda job: job.client)
    for result in results:
        if result.refusal or result.fault:
            print("%s %s: %s" % ("FAULT" if result.fault else "refused", name_of(result.job), result.fault or result.refusal))
    held = sum(not result.fault for result in results)
    print("%d of %d hold" % (held, len(results)))
    return 0 if results and held == len(results) else 1


if __name__ == "__main__":
    if len(sys.argv) < 2:
        sys.exit(__doc__)
    sys.exit(main(*sys.argv[1:]))
