#!/usr/bin/env bash
# Shows that jobs of real clients are previewed as what went in, dot for dot, or refused with the command that
# docs/LANGUAGE.md leaves out; and that each job, written again, has the same pages. Prints a table for the README, and
# ends with status 1 where something else came out.
#
#   Client       Debian's package               Where it puts the upper left dot of a bitmap, and why
#   pbmtolj      netpbm                         (0, 37) at 300 dots per inch: the first line below the top margin 0
#   ImageMagick  imagemagick                    the same
#   Graphics-
#     Magick     graphicsmagick                 the same
#   efix         efax                           the same
#   gs           ghostscript                    what is painted an inch from the sheet's edges, less the margins that gs
#                                               names for the device (/Margins)
#   hpijs        printer-driver-hpijs           the same, less 1/4 inch from the left and 1/5 inch from above; and 8/48
#                                               inch lower, since `&l8c8E` sets so much as the top margin
#   rastertohp   cups, cups-ppdc                (0, 150): `&a360V` below the top margin 0
#   ippevepcl    cups-ipp-utils                 (0, 100): `&a120V`, 50 dots, below `&l2E` at 12 lines an inch, 50 more
#   Gutenprint   printer-driver-gutenprint      (0, 50): `&a120V` below the top margin 0
#   hp2xx        hp2xx                          (0, 0) of A4: `&l26A`, `&l0E`, `&a0V`; without them the first line, (0, 187)
#   barcode      barcode                        rectangles: as oracle/plain paints them
#   dvilj        texlive-binaries,              text in soft fonts, and rectangles: as oracle/plain paints them, and as dvips
#                texlive-base                   and gs paint the same document: (0, 0) lies on (83, -1) of their sheet, since
#                                               dvilj counts from an inch less 84 dots, and the two round otherwise
#
# PCLMIN names another build of pclmin. Needs Python 3 and rustc; the packages are installed where they are missing.
set -euo pipefail
cd "$(dirname "$0")/.."
source bench/program.sh

PACKAGES="netpbm imagemagick graphicsmagick efax ghostscript printer-driver-hpijs cups cups-ppdc cups-ipp-utils
    printer-driver-gutenprint hp2xx barcode texlive-binaries texlive-base"
work=build/client
bitmaps="$work/dither.pbm $work/strips.pbm"
all_bitmaps="$work/picture.pbm $work/page.pbm $work/corner.pbm $bitmaps"
status=0

# ---- the table

# Begins a row: the client, its package, and its options.
begin() {
    client=$1 version=$(dpkg-query -W -f '${Version}' "$2") options=$3
    jobs=0 read=0 written=0 wrong=
}

# Ends it with what came out, unless something was wrong.
end() {
    if [ -n "$wrong" ]; then
        status=1
    fi
    echo "| $client | $version | $options | $jobs | $(grouped "$read") | $(grouped "$written") | ${wrong:-$1} |"
}

# 1,234,567 for 1234567.
grouped() {
    sed ':more; s/\B[0-9]\{3\}\>/,&/; t more' <<< "$1"
}

# ---- one job

# Previews page 1 of a job, and counts the job.
preview() {
    local job=$1 dpi=$2
    jobs=$((jobs + 1)) read=$((read + $(stat -c %s "$job")))
    "$PCLMIN" pbm --page 1 --dpi "$dpi" < "$job" > "$job.preview" 2> "$job.fault" || wrong="WRONG: $(cat "$job.fault")"
}

# Writes a job again and compares the previews of both, page by page, up to the first page that neither has.
write_again() {
    local job=$1 dpi=$2 page=1
    if ! "$PCLMIN" min --dpi "$dpi" < "$job" > "$job.written" 2> "$job.fault"; then
        wrong="WRONG: not written again: $(cat "$job.fault")"
        return
    fi
    written=$((written + $(stat -c %s "$job.written")))
    while "$PCLMIN" pbm --page "$page" --dpi "$dpi" < "$job" > "$job.before" 2> "$job.fault"; do
        "$PCLMIN" pbm --page "$page" --dpi "$dpi" < "$job.written" > "$job.after" 2> "$job.fault" || true
        cmp -s "$job.before" "$job.after" || wrong="WRONG: page $page of $job differs when it is written again"
        page=$((page + 1))
    done
    if "$PCLMIN" pbm --page "$page" --dpi "$dpi" < "$job.written" > "$job.after" 2> "$job.fault"; then
        wrong="WRONG: $job has more pages when it is written again"
    fi
}

# Page 1 has to be the bitmap: each of its dots a square of SCALE dots, the upper left one at (X, Y).
shows() {
    local job=$1 dpi=$2 bitmap=$3 x=$4 y=$5 scale=$6
    preview "$job" "$dpi"
    python3 bench/compare.py "$bitmap" "$job.preview" "$x" "$y" "$scale" 2> "$job.fault" || wrong="WRONG: $(cat "$job.fault")"
    write_again "$job" "$dpi"
}

# Page 1 has to be what the plain program paints, which shares no line with pclmin.
says() {
    local job=$1 dpi=$2
    preview "$job" "$dpi"
    "$PLAIN" pbm --page 1 --dpi "$dpi" < "$job" | cmp -s - "$job.preview" || wrong="WRONG: $job isn't previewed as oracle/plain paints it"
    write_again "$job" "$dpi"
}

# The same, for a client that loses dots: those of page 1 have to be the bitmap's, the upper left one at (X, Y).
thins() {
    local job=$1 dpi=$2 bitmap=$3 x=$4 y=$5
    says "$job" "$dpi"
    python3 bench/compare.py "$bitmap" "$job.preview" "$x" "$y" 1 within 2> "$job.fault" || wrong="WRONG: $(cat "$job.fault")"
}

# The job has to be refused by this kind, for this command.
refuses() {
    local job=$1 dpi=$2 kind=$3 name=$4
    jobs=$((jobs + 1)) read=$((read + $(stat -c %s "$job")))
    "$PCLMIN" pbm --page 1 --dpi "$dpi" < "$job" > "$job.preview" 2> "$job.fault" || true
    grep -Eqx "pclmin: refused: $kind at [0-9]+ ${name//\*/\\*}" "$job.fault" || wrong="WRONG: $job isn't refused for $name"
}

# ---- the clients

# Each resolution and each bitmap; where a width isn't set, what lies past the page's right edge is left out.
pbmtolj_jobs() {
    local compression=$1 bitmap resolution
    for resolution in 75 100 150 300; do
        for bitmap in $2; do
            pbmtolj -quiet -resolution "$resolution" $compression "$bitmap" > "$work/job.pcl"
            "$3" "$work/job.pcl" 300 "$bitmap" 0 37 $((300 / resolution))
        done
    done
}

# A white row that pbmtolj means otherwise than it says: the preview is what the job says, and meant.py finds the bitmap
# in it where a white row is read as pbmtolj means it.
says_otherwise() {
    local job=$1 dpi=$2 bitmap=$3
    says "$job" "$dpi"
    python3 bench/meant.py "$job" "$bitmap" | cmp -s - "$bitmap" || wrong="WRONG: $job isn't $bitmap in any way"
}

pbmtolj_rows() {
    local compression
    for compression in "" -packbits; do
        begin pbmtolj netpbm "${compression:-plain}; 75, 100, 150, 300"
        pbmtolj_jobs "$compression" "$all_bitmaps" shows
        end "each dot as it went in"
    done
    for compression in -delta -compress; do
        begin pbmtolj netpbm "$compression; 75, 100, 150, 300"
        pbmtolj_jobs "$compression" "$work/page.pbm $work/dither.pbm $work/corner.pbm" shows
        end "each dot as it went in"
        begin pbmtolj netpbm "$compression, white rows below rows of method 3"
        pbmtolj_jobs "$compression" "$work/strips.pbm" says_otherwise
        end "as the job says, which isn't what went in: the client's fault"
    done
    begin pbmtolj netpbm "plain; 600"
    pbmtolj -quiet -resolution 600 "$work/dither.pbm" > "$work/job.pcl"
    shows "$work/job.pcl" 600 "$work/dither.pbm" 0 75 1
    end "each dot as it went in"
}

# ImageMagick and GraphicsMagick take the same words.
magick_rows() {
    local client=$1 package=$2 program=$3 compression bitmap resolution
    for compression in None RLE; do
        begin "$client" "$package" "-compress $compression; 75, 100, 150, 300"
        for resolution in 75 100 150 300; do
            for bitmap in $all_bitmaps; do
                $program "$bitmap" -density "$resolution" -units PixelsPerInch -compress "$compression" "pcl:$work/job.pcl"
                shows "$work/job.pcl" 300 "$bitmap" 0 37 $((300 / resolution))
            done
        done
        end "each dot as it went in"
    done
}

# A bitmap has to be a multiple of eight dots wide.
efix_rows() {
    local bitmap resolution
    begin efix efax "-o pcl; 75, 150, 300"
    for resolution in 75 150 300; do
        for bitmap in "$work/page.pbm" "$work/strips.pbm"; do
            efix -v e -i pbm -o pcl -R "$resolution" -r "$resolution" "$bitmap" > "$work/job.pcl"
            shows "$work/job.pcl" 300 "$bitmap" 0 37 $((300 / resolution))
        done
    done
    end "each dot as it went in"
}

# Prints a bitmap by a device of gs, an inch from the sheet's edges.
gs_job() {
    local device=$1 dpi=$2 bitmap=$3
    python3 bench/rasters.py ps "$bitmap" "$dpi" > "$work/page.ps"
    gs -q -dSAFER -dBATCH -dNOPAUSE -sDEVICE="$device" -r"$dpi" -sOutputFile="$work/job.pcl" "${@:4}" "$work/page.ps" > "$work/job.log" 2>&1
}

# How far a device moves the page to the right and down, in dots.
gs_margins() {
    gs -q -dSAFER -dBATCH -sDEVICE="$1" -sOutputFile=/dev/null -c "currentpagedevice /Margins get { cvi = } forall"
}

gs_rows() {
    local device dpi margins bitmap
    for device in laserjet ljetplus ljet2p fs600; do
        dpi=300
        [ "$device" != fs600 ] || dpi=600
        begin ghostscript ghostscript "$device; $dpi"
        margins=($(gs_margins "$device"))
        for bitmap in $bitmaps; do
            gs_job "$device" "$dpi" "$bitmap"
            shows "$work/job.pcl" "$dpi" "$bitmap" $((dpi + margins[0])) $((dpi + margins[1])) 1
        done
        end "each dot as it went in"
    done
    begin ghostscript ghostscript "lj4dith; 600"
    margins=($(gs_margins lj4dith))
    for bitmap in $bitmaps; do
        gs_job lj4dith 600 "$bitmap"
        thins "$work/job.pcl" 600 "$bitmap" $((600 + margins[0])) $((600 + margins[1]))
    done
    end "as the job says: what went in, but for dots that the client loses"
    for device in ljet3 ljet4; do
        begin ghostscript ghostscript "$device"
        gs_job "$device" 300 "$work/dither.pbm"
        refuses "$work/job.pcl" 300 UnsupportedValue "&lU"
        end "refused at \`&lU\`: it moves the page by registration offsets"
    done
    begin ghostscript ghostscript "fs600 at --dpi 300"
    gs_job fs600 600 "$work/dither.pbm"
    refuses "$work/job.pcl" 300 UnsupportedValue "*tR"
    end "refused at \`*tR\`: rasters of 600 dots per inch are for \`--dpi 600\`"
}

# Quality 1 is the draft of 300 dots per inch, 0 is 600.
hpijs_rows() {
    local quality dpi bitmap
    for quality in 1 0; do
        dpi=$((quality == 1 ? 300 : 600))
        begin hpijs printer-driver-hpijs "HP LaserJet; quality $quality; $dpi"
        for bitmap in $bitmaps; do
            gs_job ijs "$dpi" "$bitmap" -sIjsServer=hpijs -dIjsUseOutputFD -sDeviceManufacturer=HEWLETT-PACKARD \
                -sDeviceModel="HP LaserJet" -sIjsParams=Quality:Quality="$quality",Quality:ColorMode=0,Quality:MediaType=0,Quality:PenSet=0,Quality:FullBleed=0
            thins "$work/job.pcl" "$dpi" "$bitmap" $((dpi - dpi / 4)) $((dpi - dpi / 5 + dpi / 6))
        done
        end "as the job says: what went in, but for dots that the client loses"
    done
}

rastertohp_rows() {
    local method dpi page_dpi bitmap
    ppdc -d "$work" /usr/share/cups/drv/sample.drv > /dev/null 2>&1
    for method in 0 1 2; do
        begin "CUPS rastertohp" cups "method $method; 75, 150, 300, 600"
        for dpi in 75 150 300 600; do
            page_dpi=$((dpi == 600 ? 600 : 300))
            for bitmap in $bitmaps; do
                python3 bench/rasters.py cups "$bitmap" "$dpi" "$method" |
                    PPD="$work/laserjet.ppd" /usr/lib/cups/filter/rastertohp 1 user title 1 "" > "$work/job.pcl" 2> "$work/job.log"
                shows "$work/job.pcl" "$page_dpi" "$bitmap" 0 $((page_dpi / 2)) $((page_dpi / dpi))
            done
        done
        end "each dot as it went in"
    done
}

ippevepcl_rows() {
    local dpi bitmap
    begin "CUPS ippevepcl" cups-ipp-utils "300, 600"
    for dpi in 300 600; do
        for bitmap in $bitmaps; do
            python3 bench/rasters.py pwg "$bitmap" "$dpi" > "$work/page.pwg"
            CONTENT_TYPE=image/pwg-raster /usr/sbin/ippevepcl "$work/page.pwg" > "$work/job.pcl" 2> "$work/job.log"
            shows "$work/job.pcl" "$dpi" "$bitmap" 0 $((dpi / 3)) 1
        done
    done
    end "each dot as it went in"
}

gutenprint_rows() {
    local dpi method bitmap
    /usr/lib/cups/driver/gutenprint.5.3 cat gutenprint.5.3://pcl-g_5e/expert > "$work/gutenprint.ppd" 2> "$work/job.log"
    begin Gutenprint printer-driver-gutenprint "Generic PCL 5e; threshold; 150, 300, 600"
    for dpi in 150 300 600; do
        method=$((dpi == 150 ? 2 : dpi == 300 ? 3 : 4)) # what its PPD sets for these resolutions
        for bitmap in $bitmaps; do
            python3 bench/rasters.py gray "$bitmap" "$dpi" "$method" |
                PPD="$work/gutenprint.ppd" /usr/lib/cups/filter/rastertogutenprint.5.3 1 user title 1 \
                    "StpColorCorrection=Threshold" > "$work/job.pcl" 2> "$work/job.log"
            if [ "$dpi" = 600 ]; then
                shows "$work/job.pcl" 600 "$bitmap" 0 100 1
            else
                shows "$work/job.pcl" 300 "$bitmap" 0 50 $((300 / dpi))
            fi
        done
    done
    end "each dot as it went in"
}

# A drawing in HP's plotter language: two frames, a line, a circle. What goes in is hp2xx's own bitmap of it.
hp2xx_rows() {
    local dpi
    echo "IN;SP1;PU400,400;PD4000,400,4000,3000,400,3000,400,400;PU1000,1000;PD3000,2500;PU2000,1700;CI600;PU;SP0;" > "$work/drawing"
    for begins in "-i -F" ""; do
        begin hp2xx hp2xx "-m pcl${begins:+ $begins}; 75, 100, 150, 300"
        for dpi in 75 100 150 300; do
            hp2xx -q -m pbm -d "$dpi" -f "$work/drawing.pbm" "$work/drawing"
            hp2xx -q -m pcl $begins -d "$dpi" -f "$work/job.pcl" "$work/drawing"
            shows "$work/job.pcl" 300 "$work/drawing.pbm" 0 $((${#begins} == 0 ? 187 : 0)) $((300 / dpi))
        done
        end "each dot as it went in"
    done
    begin hp2xx hp2xx "-m pcl -S 1"
    hp2xx -q -m pcl -S 1 -d 300 -f "$work/job.pcl" "$work/drawing"
    refuses "$work/job.pcl" 300 UnsupportedCommand "*rU"
    end "refused at \`*rU\`: colors"
}

barcode_rows() {
    local encoding dpi
    begin "GNU barcode" barcode "-P -n; code 39, EAN, code 128"
    for encoding in 39 ean 128; do
        barcode -b 1234567 -e "$encoding" -n -P -o "$work/job.pcl"
        for dpi in 300 600; do
            says "$work/job.pcl" "$dpi"
        done
    done
    end "as the job says, by rectangles"
    begin "GNU barcode" barcode "-P"
    barcode -b 1234567 -P -o "$work/job.pcl"
    refuses "$work/job.pcl" 300 NoFont text
    end "refused at its text, which is in a font of the printer"
}

# Paints each page of the document by dvips and gs, in the same bitmap fonts.
other_pages() {
    local page
    tex -interaction=batchmode -output-directory="$work" bench/document.tex > /dev/null
    dvips -q -V1 -D 300 -mode cx -t letter -o "$work/document.ps" "$work/document.dvi" > "$work/job.log" 2>&1
    gs -q -dSAFER -dBATCH -dNOPAUSE -sDEVICE=pbmraw -r300 -sPAPERSIZE=letter -sOutputFile="$work/other-%d" "$work/document.ps"
    for page in 1 2; do
        LC_ALL=C sed 2d "$work/other-$page" > "$work/other-$page.pbm" # without its comment
    done
}

dvilj_rows() {
    local program page
    other_pages
    for program in dvilj dvilj2p; do
        begin "$program" texlive-binaries "two pages of TeX; 300, 600"
        "$program" -q -e"$work/job.pcl" "$work/document.dvi" > "$work/job.log" 2>&1
        says "$work/job.pcl" 600
        says "$work/job.pcl" 300
        for page in 1 2; do
            "$PCLMIN" pbm --page "$page" < "$work/job.pcl" > "$work/job.preview"
            python3 bench/beside.py "$work/job.preview" "$work/other-$page.pbm" 83 -1 2 "$work/text-$page.png" \
                > "$work/job.beside" 2> "$work/job.fault" || wrong="WRONG: page $page: $(cat "$work/job.fault")"
        done
        end "as the job says, by soft fonts; no dot is more than 2 dots from one of dvips and ghostscript"
    done
    for program in dvilj4 dvilj4l dvilj6; do
        begin "$program" texlive-binaries "two pages of TeX"
        if "$program" -q -e"$work/job.pcl" "$work/document.dvi" > "$work/job.log" 2>&1; then
            says "$work/job.pcl" 600
            end "as the job says, by soft fonts"
        else
            end "sends nothing: it ends by a segmentation fault of its own"
        fi
    done
}

samples() {
    local job
    for job in examples/*.pcl; do
        client="\`$job\`" version= options= jobs=1 read=$(stat -c %s "$job") written=0 wrong=
        cp "$job" "$work/job.pcl"
        write_again "$work/job.pcl" 300
        end "written again, each dot the same"
    done
}

if ! dpkg-query -W $PACKAGES > /dev/null 2>&1; then
    apt-get update -qq && DEBIAN_FRONTEND=noninteractive apt-get install -y -qq --no-install-recommends $PACKAGES > /dev/null
fi
mkdir -p "$work"
build_plain
python3 bench/bitmaps.py "$work"
python3 examples/draw.py "$work/picture.pbm"

echo "| Client | Version | Options | Jobs | Bytes | Written again | What comes out |"
echo "|---|---|---|---:|---:|---:|---|"
pbmtolj_rows
magick_rows ImageMagick imagemagick convert
magick_rows GraphicsMagick graphicsmagick "gm convert"
efix_rows
gs_rows
hpijs_rows
rastertohp_rows
ippevepcl_rows
gutenprint_rows
hp2xx_rows
barcode_rows
dvilj_rows
samples
exit "$status"
