#!/usr/bin/env bash
# Makes pictures of jobs by the command line of share/pclmin.thumbnailer, as a file manager does, and looks at their sizes; and asks a
# database of types with share/pclmin.xml what files are whose names say nothing: thumbnails.sh PCLMIN. Needs netpbm, shared-mime-info,
# file, and gio of GLib.
set -euo pipefail
program=$(realpath "$1")
cd "$(dirname "$0")/../.."
place=$(mktemp -d)
trap 'rm -rf "$place"' EXIT
failed=0

# is WHAT FOUND WANTED
is() {
    if [ "$2" != "$3" ]; then
        echo "$1: '$2' and not '$3'"
        failed=1
    fi
}

# thumbnail JOB SIZE: what the command line of the entry makes, by its size, or its status where it makes none
thumbnail() {
    local words word status=0
    rm -f "$place/picture.png"
    read -ra words < <(sed -n 's/^Exec=//p' share/pclmin.thumbnailer)
    for word in "${!words[@]}"; do
        case ${words[word]} in
            %i) words[word]=$1 ;;
            %o) words[word]=$place/picture.png ;;
            %s) words[word]=$2 ;;
        esac
    done
    PATH=$place/bin:$PATH "${words[@]}" 2> /dev/null || status=$?
    if [ -e "$place/picture.png" ]; then
        file -b "$place/picture.png" | grep -o 'PNG image data, [0-9]* x [0-9]*'
    else
        echo "status $status"
    fi
}

# type_of JOB: the type of these bytes in a file without a suffix
type_of() {
    printf "$1" > "$place/bytes"
    XDG_DATA_HOME=$place gio info -a standard::content-type "$place/bytes" | sed -n 's/.*content-type: //p'
}

mkdir -p "$place/bin" "$place/mime/packages"
ln -s "$program" "$place/bin/pclmin"
cp share/pclmin-thumbnailer "$place/bin"
printf '\033&l26a0E\033*p0x0Y\033*t600R\033*r0A\033*b1W\200' > "$place/fine.pcl"
printf '\033&l-180u36Z\033&l0E\033*p0x0Y\033*c9a9b0P' > "$place/moved.pcl"
printf '\033*p70000X' > "$place/refused.pcl"
: > "$place/empty.pcl"

is "a Letter page" "$(thumbnail examples/picture.pcl 256)" "PNG image data, 186 x 256"
is "the smallest size" "$(thumbnail examples/picture.pcl 128)" "PNG image data, 93 x 128"
is "the largest size" "$(thumbnail examples/picture.pcl 1024)" "PNG image data, 745 x 1024"
is "an A4 page at 600 dots per inch" "$(thumbnail "$place/fine.pcl" 256)" "PNG image data, 171 x 256"
is "a page that a driver moves" "$(thumbnail "$place/moved.pcl" 256)" "PNG image data, 186 x 256"
is "a refused job" "$(thumbnail "$place/refused.pcl" 256)" "status 1"
is "a job without a page" "$(thumbnail "$place/empty.pcl" 256)" "status 1"

cp share/pclmin.xml "$place/mime/packages"
update-mime-database "$place/mime" 2> /dev/null
is "a job" "$(type_of '\033E\033&l0E')" application/vnd.hp-pcl
is "a job after @PJL lines" "$(type_of '\033%%-12345X@PJL JOB\r\n@PJL ENTER LANGUAGE = PCL\r\n\033E')" application/vnd.hp-pcl
is "a job in PCL XL" "$(type_of '\033%%-12345X@PJL ENTER LANGUAGE=PCLXL\r\n) HP-PCL XL;2;0')" application/octet-stream
is "a text" "$(type_of 'Dear Sir or Madam')" text/plain
exit "$failed"
