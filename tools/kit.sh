#!/bin/sh
# Where the Rattle kit's command `rt` isn't there, says in two lines what it is and who needs it, and ends with status 1. README.md names
# the versions.
command -v rt > /dev/null && exit 0
versions=$(grep -o 'rattle-kit-[0-9a-z]* logic' "$(dirname "$0")/../README.md" | sed 's/ logic//; $!s/$/ or/' | tr '\n' ' ')
echo "there is no rt, the command of the Rattle kit (${versions% }, for Linux on x86-64), which proves and builds this program" >&2
echo "a built program needs none of it: it is the one file build/pclmin, which runs on any such Linux" >&2
exit 1
