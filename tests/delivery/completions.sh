#!/usr/bin/env bash
# What the completions offer in bash, zsh and fish. Needs zsh and fish.
set -euo pipefail
cd "$(dirname "$0")/../.."
failed=0

# offers SHELL WORDS WANTED: the offers, sorted, in one line
offers() {
    if [ "$2" != "$3" ]; then
        echo "$1 offers '$2' and not '$3'"
        failed=1
    fi
}

in_bash() {
    bash -c 'source share/completions/pclmin.bash; COMP_WORDS=("$@"); COMP_CWORD=$(($# - 1)); _pclmin; printf "%s\n" "${COMPREPLY[@]}"' \
        bash "$@" | sort | xargs
}

in_fish() {
    fish --no-config -c 'source share/completions/pclmin.fish; complete -C "$argv"' "$*" | cut -f 1 | sort | xargs
}

offers bash "$(in_bash pclmin m)" "min"
offers bash "$(in_bash pclmin pages --o)" "--output"
offers bash "$(in_bash pclmin batch --)" "--dpi --drivers --help --in-place --json --keep-folders --keep-inode --min --output --profile-only --quiet --stated"
offers bash "$(in_bash pclmin check --page examples/p)" "examples/picture.pcl"
offers bash "$(in_bash pclmin min --dpi "")" "300 600 auto"
offers bash "$(in_bash pclmin min --f)" "--format"
offers bash "$(in_bash pclmin shrink --r)" "--report"
offers bash "$(in_bash pclmin pbm --)" "--dpi --drivers --help --keep-inode --output --page --quiet"
offers bash "$(in_bash pclmin same examples/p)" "examples/picture.pcl"
offers bash "$(in_bash pclmin same --)" "--asked --dpi --help --image --json --quiet --stated"
offers bash "$(in_bash pclmin pgm --)" "--dpi --drivers --help --keep-inode --output --page --quiet --scale"
offers fish "$(in_fish pclmin p)" "pages pbm pgm"
offers fish "$(in_fish pclmin pages --t)" "--tsv"
offers fish "$(in_fish pclmin shrink --s)" "--stated"
offers fish "$(in_fish pclmin min --dpi "")" "300 600 auto"
offers fish "$(in_fish pclmin min --f)" "--format"
zsh -n share/completions/_pclmin
exit "$failed"
