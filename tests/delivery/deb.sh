#!/usr/bin/env bash
# Makes build/pclmin_VERSION_ARCHITECTURE.deb of what `make install install-cups` installs, with zsh's completion where Debian's zsh
# looks. With `try` it is also installed, run and purged, which has to be done as root. Needs dpkg-deb, objdump of binutils, and the
# program that `make build` left.
set -euo pipefail
cd "$(dirname "$0")/../.."
program=build/pclmin
[ -x "$program" ] || { echo "there is no $program: run make build first" >&2; exit 1; }

version=$("$program" --version | cut -d ' ' -f 2)
architecture=$(dpkg --print-architecture)
root=build/deb
package=build/pclmin_${version}_$architecture.deb
rm -rf "$root"
make --no-print-directory install install-cups DESTDIR="$PWD/$root" PREFIX=/usr > /dev/null
gzip -9n "$root/usr/share/man/man1/pclmin.1" "$root/usr/share/man/man8/pclmin-cups.8"
mkdir -p "$root/usr/share/zsh/vendor-completions" "$root/usr/share/doc/pclmin"
mv "$root/usr/share/zsh/site-functions/_pclmin" "$root/usr/share/zsh/vendor-completions/_pclmin"
rmdir "$root/usr/share/zsh/site-functions"
gzip -9n < CHANGELOG.md > "$root/usr/share/doc/pclmin/changelog.gz"
cat > "$root/usr/share/doc/pclmin/copyright" <<COPYRIGHT
pclmin is made by Yulmado. Its sources state no licence.
COPYRIGHT
libc=$(objdump -T "$program" | grep -o 'GLIBC_[0-9.]*' | sort -Vu | tail -n 1)
mkdir "$root/DEBIAN"
cat > "$root/DEBIAN/control" <<CONTROL
Package: pclmin
Version: $version
Architecture: $architecture
Maintainer: Yulmado maintainers <maintainers@users.noreply.yulmado.example>
Depends: libc6 (>= ${libc#GLIBC_})
Suggests: cups, netpbm, shared-mime-info
Section: text
Priority: optional
Description: proved print filter for PCL 5
 Shrinks print jobs in PCL 5: shrink writes a job with the same dots, copies,
 paper and trays in few bytes, letters as soft fonts. min writes the smallest
 raster job of a stated form, with a certificate that nothing smaller exists.
 Pages are previewed, and jobs compared and checked. A CUPS backend sends jobs
 as smaller ones, and file managers show the first page of a job where netpbm
 is installed.
CONTROL
dpkg-deb --root-owner-group --build "$root" "$package" > /dev/null
echo "$package"

if [ "${1:-}" = try ]; then
    dpkg --install "$package" > /dev/null
    [ "$(pclmin --version)" = "pclmin $version" ]
    pclmin pbm --page 1 -o build/dot.pbm examples/dot.pcl
    [ "$(head -c 2 build/dot.pbm)" = P4 ]
    [ -e /usr/share/zsh/vendor-completions/_pclmin ]
    zcat /usr/share/doc/pclmin/changelog.gz | cmp - CHANGELOG.md
    [ -s /usr/share/doc/pclmin/copyright ]
    man -w pclmin > /dev/null
    man -w pclmin-cups > /dev/null
    grep -q '^Exec=pclmin-thumbnailer ' /usr/share/thumbnailers/pclmin.thumbnailer
    [ -x /usr/bin/pclmin-thumbnailer ] && [ -e /usr/share/mime/packages/pclmin.xml ]
    /usr/lib/cups/backend/pclmin | grep -q '^network pclmin '
    grep -q '^program=.*/usr/bin/pclmin' /usr/lib/cups/backend/pclmin
    dpkg --purge pclmin > /dev/null
    for left in /usr/bin/pclmin /usr/bin/pclmin-thumbnailer /usr/share/thumbnailers/pclmin.thumbnailer /usr/lib/cups/backend/pclmin \
        /usr/share/zsh/vendor-completions/_pclmin /usr/share/doc/pclmin; do
        if [ -e "$left" ]; then echo "$left is still there" >&2; exit 1; fi
    done
    echo "installed, run and purged"
fi
