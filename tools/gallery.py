#!/usr/bin/env python3
"""Makes docs/GALLERY.md and its pictures anew: ten jobs of bench/clients.py, with their first page and their bytes.

    tools/gallery.py PROGRAM

PROGRAM is a built pclmin. A picture is page 1 by `pclmin pbm`, made smaller to greys. Needs what clients.py needs.
"""

import os
import subprocess
import sys
import tempfile

sys.dont_write_bytecode = True
sys.path.insert(0, os.path.join(os.path.dirname(os.path.realpath(__file__)), "..", "bench"))
import clients

NAMES = ["ghostscript ljet2p 300 text", "Gutenprint 300 pages", "CUPS rastertohp 300 0 form", "ghostscript laserjet 150 form",
         "netpbm pbmtolj 300 -packbits mixed", "ImageMagick 300 RLE grey", "ghostscript fs600 600 mixed", "hp2xx 300 -i -F drawing",
         "GNU barcode -P -n 128", "dvilj 300 TeX"]
WIDTH = 320  # of a picture, in dots
DEPTH = 15  # of a picture: the number of white
MOST_BYTES = 20000
HEAD = """# Ten jobs of real clients

A title names the driver, its options, and the document; the picture is page 1 by `pclmin pbm`, made smaller. Bytes are those of all
pages. What `min` and `shrink` write prints the same pages as the job that was sent, by `pclmin same`.

`tools/gallery.py PROGRAM` makes this page anew.
"""


def picture(program, dpi, job, target):
    """Draws page 1 of a job as a small PNG, and tells its size."""
    page = subprocess.run([program, "pbm", "--page", "1", "--dpi", str(dpi), job], stdout=subprocess.PIPE, check=True).stdout
    command = "pbmtopgm 1 1 | pamdepth 255 | pamscale -xsize %d | pamdepth %d | pnmtopng -quiet -compression 9" % (WIDTH, DEPTH)
    with open(target, "wb") as out:
        subprocess.run(["bash", "-o", "pipefail", "-c", command], input=page, stdout=out, check=True)
    return os.path.getsize(target)


def entry(program, folder, gallery, number, job):
    """Makes the picture of a job and gives its lines of the page."""
    result = clients.tried(program, folder, number, job)
    name = clients.name_of(job)
    if result.fault or result.refusal:
        sys.exit("%s: %s" % (name, result.fault or result.refusal))
    file = "-".join(name.replace("-", " ").lower().split()) + ".png"
    drawn = picture(program, result.dpi, os.path.join(folder, str(number), "job.pcl"), os.path.join(gallery, file))
    if drawn > MOST_BYTES:
        sys.exit("%s has %d bytes" % (file, drawn))
    sizes = "sent {:,} bytes, `min` {:,}, `shrink` {:,}".format(result.sent, result.least, result.smaller)
    return "\n## %s\n\n%d dots per inch: %s\n\n![Page 1 of %s](gallery/%s)\n" % (name, result.dpi, sizes, name, file)


def main(program):
    docs = os.path.join(os.path.dirname(os.path.realpath(__file__)), "..", "docs")
    gallery = os.path.join(docs, "gallery")
    os.makedirs(gallery, exist_ok=True)
    jobs = {clients.name_of(job): job for job in clients.all_jobs()}
    with tempfile.TemporaryDirectory() as folder:
        clients.make_documents(folder)
        entries = [entry(os.path.realpath(program), folder, gallery, number, jobs[name]) for number, name in enumerate(NAMES)]
    with open(os.path.join(docs, "GALLERY.md"), "w") as out:
        out.write(HEAD + "".join(entries))


if len(sys.argv) != 2:
    sys.exit(__doc__)
main(sys.argv[1])
