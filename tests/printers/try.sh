#!/usr/bin/env bash
# tests/printers/try.sh PROGRAM: what the backend does with a device behind it that only keeps what comes. It needs no CUPS.
set -u
cd "$(dirname "$0")/../.."
program=$(realpath "$1")
folder=$(mktemp -d)
trap 'rm -rf "$folder"' EXIT
failed=0
cases=0

mkdir -p "$folder/backend" "$folder/tmp" "$folder/a temporary place"
cat > "$folder/backend/keep" << 'END'
#!/bin/sh
# Keeps what comes and how it is called, waits WAIT tenths of a second, and ends with the status ENDS.
folder=$(dirname "$(dirname "$0")")
trap 'echo stopped >> "$folder/called"; exit 9' TERM
echo "$DEVICE_URI $# $4" > "$folder/called"
printf '%s|%s' "$3" "$5" > "$folder/words"
for descriptor in 3 4 5 6 7 8 9; do
    if [ -e "/proc/$$/fd/$descriptor" ]; then echo "$descriptor $(readlink "/proc/$$/fd/$descriptor")"; fi
done > "$folder/open"
if [ -n "${ANSWERS-}" ]; then echo back >&3 && echo side >&4; fi
if [ $# -eq 6 ]; then cat "$6"; else cat; fi > "$folder/kept"
# as CUPS's own: one page for each file
if [ $# -eq 6 ]; then echo "PAGE: 1 ${TELLS:-1}" >&2; fi
echo "INFO: kept" >&2
i=0
while [ "$i" -lt "${WAIT:-0}" ]; do sleep 0.1; i=$((i + 1)); done
exit "${ENDS:-0}"
END
cat > "$folder/backend/slow" << 'END'
#!/bin/sh
# Takes the start of the job, and the rest only once it may; ignores TERM on standard input, as CUPS's own do.
folder=$(dirname "$(dirname "$0")")
if [ $# -eq 5 ]; then trap '' TERM; fi
head -c 100000 > "$folder/kept"
echo started > "$folder/called"
until [ -e "$folder/go" ]; do sleep 0.05; done
cat >> "$folder/kept"
echo "INFO: slow at its end" >&2
END
cat > "$folder/backend/early" << 'END'
#!/bin/sh
# Ends before it has read the job, with what stays behind and holds its messages.
sleep 5 < /dev/null &
printf 'INFO: without an end of line' >&2
exit "${ENDS:-0}"
END
cat > "$folder/runs" << END
#!/bin/sh
# The program, of which each run leaves its command and the size of its job.
for last; do :; done
echo "\$1 \$(wc -c < "\$last")" >> "$folder/ran"
exec "$program" "\$@"
END
chmod +x "$folder/backend/"* "$folder/runs"
export CUPS_SERVERBIN=$folder PCLMIN=$program TMPDIR=$folder/tmp
job=examples/picture.pcl
printf 'no job' > "$folder/text"
yes 'no job' | head -c 4000000 > "$folder/long"

# holds NAME COMMAND: the command is to hold
holds() {
    cases=$((cases + 1))
    if ! eval "$2"; then
        echo "not so: $1"
        failed=$((failed + 1))
    fi
}

# send FILE RESOLUTION [DEVICE]: sends a file as CUPS does
send() { DEVICE_URI=pclmin:/$2/${3:-keep}://there cups/backend/pclmin 1 me title 2 '' "$1" 2> "$folder/said"; }

# feed FILE [DEVICE]: sends it on standard input
feed() { DEVICE_URI=pclmin:/auto/${2:-keep}://there cups/backend/pclmin 1 me title 1 '' < "$1" 2> "$folder/said"; }

# start DEVICE ARGUMENT...: starts the backend in a process group of its own, as CUPS does, and leaves its number in `backend`
start() {
    rm -f "$folder/called" "$folder/go"
    DEVICE_URI=pclmin:/auto/$1://there setsid cups/backend/pclmin 1 me title 1 "${@:2}" 2> "$folder/said" < "$from" &
    backend=$!
}

# by_then CONDITION: waits up to five seconds until it holds
by_then() {
    for _ in {1..100}; do
        if eval "$1"; then return 0; fi
        sleep 0.05
    done
    return 1
}

# ended STATUS...: the backend ends within five seconds, with one of these; where it doesn't, it is ended
ended() {
    by_then '! kill -0 $backend' || { kill -KILL -- -$backend; touch "$folder/go"; }
    wait $backend
    [[ " $* " == *" $? "* ]]
} 2> /dev/null

nothing_left() { test -z "$(ls -A "$TMPDIR")"; }

# ---- what is sent

holds "it lists itself" 'cups/backend/pclmin | grep -q "^network pclmin "'
holds "a file is sent smaller" 'send $job auto && test $(wc -c < "$folder/kept") -lt $(wc -c < $job)'
holds "it is the same job" '"$program" same $job "$folder/kept" | grep -qx same'
holds "the device behind it is named, with the copies" 'grep -qx "keep://there 6 2" "$folder/called"'
holds "it is said" 'grep -q "^INFO: pclmin: [0-9]* bytes in place of [0-9]*$" "$folder/said"'
holds "standard input is sent smaller" \
    'DEVICE_URI=pclmin:/300/keep://there cups/backend/pclmin 1 me title 1 "" < $job 2> /dev/null && "$program" same $job "$folder/kept" | grep -qx same'
holds "as standard input" 'grep -qx "keep://there 5 1" "$folder/called"'
holds "a job at 600 dots per inch" \
    'printf "\033*t600R\033*r1A\033*b1W\200\033*rC" > "$folder/fine" && send "$folder/fine" auto && "$program" same --dpi 600 "$folder/fine" "$folder/kept" | grep -qx same'
holds "what is refused goes as it came" 'send "$folder/text" auto && cmp -s "$folder/text" "$folder/kept"'
holds "with a warning that names the refusal, and says what to do" \
    'grep -q "^WARNING: pclmin: sent as it came: refused: NoFont at 0 text: text with no soft font selected: ..*$" "$folder/said"'
holds "a long one too, on standard input" 'feed "$folder/long" && cmp -s "$folder/long" "$folder/kept"'
holds "an empty job goes as it came" 'rm "$folder/kept"; feed /dev/null && test -e "$folder/kept" -a ! -s "$folder/kept"'
holds "a title and options with blanks and ends of lines come whole" \
    'DEVICE_URI=pclmin:/auto/keep://there cups/backend/pclmin 1 me "two
 words " 1 "  a=b
c" $job 2> /dev/null && test "$(cat "$folder/words")" = "two
 words |  a=b
c"'
holds "a temporary folder with blanks" 'TMPDIR="$folder/a temporary place" feed $job && "$program" same $job "$folder/kept" | grep -qx same'
holds "it ends as the device behind it" 'ENDS=7 send $job auto; test $? -eq 7'
holds "also on standard input" 'ENDS=7 feed $job; test $? -eq 7'
holds "no program: the job goes as it came" 'PCLMIN=/none send $job auto; cmp -s $job "$folder/kept" && grep -q "^WARNING: pclmin: sent as it came: ..*$" "$folder/said"'
printf '#!/bin/sh\nkill -TERM $$\n' > "$folder/dies"
chmod +x "$folder/dies"
holds "a program that dies of a signal: the job goes as it came" \
    'PCLMIN=$folder/dies send $job auto && cmp -s $job "$folder/kept" && grep -q "^WARNING: pclmin: sent as it came: ..*$" "$folder/said"'
holds "no such resolution stops the queue" 'send $job 200; test $? -eq 4'
holds "no such device stops the queue" 'send $job auto none; test $? -eq 4'
holds "no device at all stops the queue" '(unset DEVICE_URI; cups/backend/pclmin 1 me title 1 "" $job 2> "$folder/said"); test $? -eq 4 && grep -q "^ERROR: " "$folder/said"'
cp "$folder/backend/keep" "$folder/backend/locked"
chmod 644 "$folder/backend/locked"
holds "a device that it may not run stops the queue, and says what to do" 'send $job auto locked; test $? -eq 4 && grep -q "mode 700" "$folder/said"'
holds "no standard error: the job is sent all the same" 'rm "$folder/kept"; DEVICE_URI=pclmin:/auto/keep://there cups/backend/pclmin 1 me title 1 "" $job 2>&- && "$program" same $job "$folder/kept" | grep -qx same'
holds "no standard input: nothing is sent, and it fails" 'rm -f "$folder/called"; DEVICE_URI=pclmin:/auto/keep://there cups/backend/pclmin 1 me title 1 "" <&- 2> "$folder/said"; test $? -eq 1 && grep -q "^ERROR: pclmin: " "$folder/said" && test ! -e "$folder/called"'
holds "no room for the job: nothing is sent, and it fails" \
    'rm -f "$folder/called"; (ulimit -f 1000; trap "" XFSZ; feed "$folder/long"); test $? -eq 1 && grep -q "^ERROR: pclmin: " "$folder/said" && test ! -e "$folder/called"'
printf '#!/bin/sh\nulimit -f 1\nexec %s "$@"\n' "$program" > "$folder/narrow"
chmod +x "$folder/narrow"
holds "no room for what it is written as: the job goes as it came" \
    'PCLMIN=$folder/narrow feed $job && cmp -s $job "$folder/kept" && grep -q "^WARNING: pclmin: sent as it came: ..*$" "$folder/said"'
holds "no temporary folder: the job goes as it came" \
    'TMPDIR=/none feed $job && cmp -s $job "$folder/kept" && TMPDIR=/none send "$folder/text" auto && cmp -s "$folder/text" "$folder/kept" && grep -q "^WARNING: pclmin: sent as it came: " "$folder/said"'
mkdir "$folder/odd"
printf '#!/bin/sh\nmkdir "$@"\n' > "$folder/odd/mkfifo"
chmod +x "$folder/odd/mkfifo"
holds "where the shell can't go on, it fails, and says so" \
    'rm -f "$folder/called"; PATH=$folder/odd:$PATH feed $job; test $? -eq 1 && grep -q "^ERROR: pclmin: " "$folder/said" && test ! -e "$folder/called"'
holds "a device that ends early is waited for, and what it left behind isn't" \
    'SECONDS=0; ENDS=5 CONTENT_TYPE=application/vnd.cups-raw send $job auto early; test $? -eq 5 -a $SECONDS -lt 3'
holds "its last message comes without an end of line" 'grep -qx "INFO: without an end of line" "$folder/said"'
holds "also on standard input" 'SECONDS=0; ENDS=5 feed "$folder/long" early; test $? -eq 5 -a $SECONDS -lt 3'
holds "the device doesn't ignore PIPE" \
    'printf "#!/bin/sh\nyes | head -n 1 > /dev/null; kill -PIPE \$\$; exit 3\n" > "$folder/backend/pipe"; chmod +x "$folder/backend/pipe"; feed $job pipe; test $? -eq 141'

# ---- the channels

answers() { ANSWERS=yes feed $job 3> "$folder/back" 4> "$folder/side"; }
holds "the device's back and side channels are CUPS's" 'answers; test "$(cat "$folder/back" "$folder/side")" = "back
side"'
holds "and what is sent stays the job" '"$program" same $job "$folder/kept" | grep -qx same'
holds "it gets no other descriptor" 'test "$(cat "$folder/open")" = "3 $folder/back
4 $folder/side"'
holds "also of a raw job as a file" 'ANSWERS=yes CONTENT_TYPE=application/vnd.cups-raw send $job auto 3> "$folder/back" 4> "$folder/side"; test "$(cat "$folder/open")" = "3 $folder/back
4 $folder/side"'
holds "nor one in the place of a channel that isn't there" \
    'feed $job 3>&- 4>&-; test ! -s "$folder/open" && CONTENT_TYPE=application/vnd.cups-raw send $job auto 3>&- 4>&- && test ! -s "$folder/open"'

# ---- pages

holds "pages of a raw job are told once, with the copies of the job" \
    'CONTENT_TYPE=application/vnd.cups-raw send $job auto && test "$(grep "^PAGE:" "$folder/said")" = "PAGE: 1 2" && grep -qx "INFO: kept" "$folder/said"'
holds "also where the device tells its copies" \
    'TELLS=2 CONTENT_TYPE=application/vnd.cups-raw send $job auto && test "$(grep "^PAGE:" "$folder/said")" = "PAGE: 1 2"'
holds "the job is performed by one run" \
    'rm -f "$folder/ran"; PCLMIN=$folder/runs CONTENT_TYPE=application/vnd.cups-raw send $job auto && test "$(cat "$folder/ran")" = "shrink $(wc -c < $job)
pages $(wc -c < "$folder/kept")"'
holds "those of a job that is refused are the device's" \
    'CONTENT_TYPE=application/vnd.cups-raw send "$folder/text" auto && test "$(grep "^PAGE:" "$folder/said")" = "PAGE: 1 1"'
holds "those of other jobs are their filters' and the device's" 'send $job auto && test "$(grep "^PAGE:" "$folder/said")" = "PAGE: 1 1"'

# ---- a job that takes too long

# nested COUNT: macros three deep, each of which calls the next so often, and the last fills a page in black and in white
nested() {
    local call
    for call in 2 3; do
        printf '\033&f%dy0X' $((call - 1))
        for ((i = 0; i < $1; i++)); do printf '\033&f%dy3X' "$call"; done
        printf '\033&f1X'
    done
    printf '\033&f3y0X'
    for ((i = 0; i < $1; i++)); do printf '\033*p0x0Y\033*c2550a3300b0P\033*p0x0Y\033*c1P'; done
    printf '\033&f1X\033&f1y2X\033E'
}
nested 90 > "$folder/nested"
# a PATH with what the backend needs, and neither `timeout` nor `flock`
mkdir "$folder/bare"
for command in awk cat date dirname find head mkfifo mktemp mv readlink rm setsid sh sleep tr wc; do ln -s "$(command -v $command)" "$folder/bare/$command"; done
holds "a job that takes too long goes as it came" \
    'from=$folder/nested PCLMIN_SECONDS=1 start keep ""; ended 0 && cmp -s "$folder/nested" "$folder/kept"'
holds "with a warning" 'grep -qx "WARNING: pclmin: sent as it came: it takes longer than 1 second" "$folder/said"'
holds "also where there is no command timeout" \
    'from=$folder/nested PATH=$folder/bare PCLMIN_SECONDS=1 start keep ""; ended 0 && cmp -s "$folder/nested" "$folder/kept" && grep -q "^WARNING: pclmin: .* it takes longer than 1 second$" "$folder/said"'
holds "where a site has set no number, it is said" 'PCLMIN_SECONDS=soon feed $job && grep -q "^WARNING: pclmin: PCLMIN_SECONDS is soon" "$folder/said" && "$program" same $job "$folder/kept" | grep -qx same'

# ---- signals

from=/dev/null
holds "TERM reaches the device" \
    'WAIT=100 start keep "" "$folder/text"; by_then "test -s $folder/called"; kill -TERM $backend; ended 9 && grep -qx stopped "$folder/called"'
# stopped PROCESS: TERM while the device has only the start of a job of standard input; then the device may go on
stopped() {
    from=$folder/long start slow ''
    by_then 'test -s "$folder/called"' && kill -TERM -- "$1$backend"
    sleep 0.3
    touch "$folder/go"
    ended 0 && test "$(wc -c < "$folder/kept")" -lt 300000
}
holds "a cancelled job on standard input comes to its end, and the device to its own" 'stopped ""'
holds "also where CUPS sends TERM to the group" 'stopped -'
holds "what was sent of it is the start of the job" 'cmp -s -n "$(wc -c < "$folder/kept")" "$folder/long" "$folder/kept" && grep -qx "INFO: slow at its end" "$folder/said"'
holds "TERM to the group leaves the messages of the device" \
    'CONTENT_TYPE=application/vnd.cups-raw from=$folder/long start slow ""; by_then "test -s $folder/called"; kill -TERM -- -$backend; touch "$folder/go"; ended 0 && grep -qx "INFO: slow at its end" "$folder/said"'
mkfifo "$folder/comes"
# coming SIGNAL GROUP: the signal while the job comes in
coming() {
    from=$folder/comes start keep ''
    exec 6> "$folder/comes"
    cat $job >&6
    by_then 'test -s "$(echo "$TMPDIR"/pclmin.*/came)"'
    kill "-$1" -- "$2$backend"
}
holds "TERM while the job comes in ends it at once" 'coming TERM ""; ended 143; held=$?; exec 6>&-; sleep 0.1; test $held -eq 0 -a ! -e "$folder/called" && nothing_left'
holds "also to the group" 'coming TERM -; ended 143; held=$?; exec 6>&-; sleep 0.1; test $held -eq 0 -a ! -e "$folder/called" && nothing_left'
holds "also HUP" 'coming HUP ""; ended 143; held=$?; exec 6>&-; sleep 0.1; test $held -eq 0 -a ! -e "$folder/called" && nothing_left'
holds "TERM while the job is performed ends it, and the program" \
    'from=$folder/nested start keep ""; by_then "test -e $TMPDIR/pclmin.*/smaller"; sleep 0.1; kill -TERM $backend; ended 143 && nothing_left && test ! -e "$folder/called" && ! pgrep -f "$program.*$TMPDIR" > /dev/null'
# moments: TERM to the group or to the backend alone, a bit later each time
moments() {
    local moment receiver
    for moment in {0..24}; do
        rm -f "$folder/kept"
        CONTENT_TYPE=application/vnd.cups-raw from=$folder/long start slow ''
        touch "$folder/go"
        sleep "$(printf '0.%03d' $((moment * 3)))"
        receiver=$backend
        if [ $((moment % 2)) -eq 0 ] && kill -0 -- -$backend 2> /dev/null; then receiver=-$backend; fi
        kill -TERM -- "$receiver" 2> /dev/null
        ended 0 143 && nothing_left || return 1
        if [ -e "$folder/kept" ]; then cmp -s -n "$(wc -c < "$folder/kept")" "$folder/long" "$folder/kept" || return 1; fi
    done
}
holds "TERM at any moment ends it, and leaves nothing but the start of the job" moments
holds "nothing is left" nothing_left
holds "KILL leaves its folder" 'coming KILL -; ended 137; exec 6>&-; test "$(ls "$TMPDIR" | wc -l)" -eq 1'
holds "where there is no command flock, nothing is taken away" 'PATH=$folder/bare send $job auto; test "$(ls "$TMPDIR" | wc -l)" -eq 1'
# a folder of somebody who lives, and one that was just made
holds "the next start takes it away, and none that is held or was just made" \
    'from=$folder/comes start keep ""; exec 6> "$folder/comes"; cat $job >&6; by_then "test -s \"\$(ls -t $TMPDIR/pclmin.*/came | head -n 1)\""; by_then "test \$(ls $TMPDIR | wc -l) -eq 1"; mkdir "$TMPDIR/pclmin.justmade" "$TMPDIR/pclmin.someones"; touch "$TMPDIR/pclmin.someones/file"; touch -d "2 days ago" "$TMPDIR/pclmin.someones"; send $job auto; test "$(ls "$TMPDIR" | wc -l)" -eq 3'
holds "so that the other's job comes whole" 'exec 6>&-; ended 0 && "$program" same $job "$folder/kept" | grep -qx same'
holds "an empty one that is old goes too" \
    'touch -d "2 days ago" "$TMPDIR/pclmin.justmade"; send $job auto; test "$(ls "$TMPDIR")" = pclmin.someones && rm -r "$TMPDIR/pclmin.someones"'
holds "the device doesn't hold the folder of a backend that was KILLed" \
    'WAIT=20 start keep "" "$folder/text"; by_then "test -s $folder/kept"; kill -KILL $backend; ended 137; send $job auto; nothing_left'
holds "nothing is left" nothing_left

echo "$((cases - failed)) of $cases hold"
test "$failed" -eq 0
