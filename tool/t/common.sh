# Shared by the tests in this folder: each reads it first, and ends with `done_testing`.
# shellcheck shell=sh disable=SC2034 # its variables are for the tests
#
# A test is a shell script that prints TAP: `ok 7 - what` or `not ok 7 - what` for each check, and at its end the plan, `1..N`: one that
# ends early has none, and fails. It works in a temporary folder of its own, so that tests can run side by side. Here are the checks, and
# below them the files that tests start with.
set -u
unset CDPATH
umask 022
# no test runs longer than this, whatever becomes of the tool; what it has started ends with it
[ -n "${LUOSSAVIN_LIMIT-}" ] || exec env LUOSSAVIN_LIMIT=300 timeout 300 sh "$0"
here=$(cd "$(dirname "$0")/../.." && pwd -P) || exit 1
tool=$here/luossavin
program=$here/target/cargo/release/luossavin
# most checks run the program as the launcher does, by the launcher's name; what the launcher does itself is in launcher.t
"$tool" help >/dev/null || { echo 'Bail out! the tool is not built' && exit 1; }
export LUOSSAVIN_CALLED="$tool"

room=$(mktemp -d) || exit 1
mkdir -m 1777 "$room/tmp" && mkdir "$room/work" "$room/log" && cd "$room/work" || exit 1
export TMPDIR="$room/tmp"
wrote=$room/log/wrote said=$room/log/said held=$room/log/held stray=$room/log/stray
# what a test says on standard error is its own mistake: the last check looks for it
exec </dev/null 6>&2 2>"$stray"
trap 'cat "$stray" >&6; chmod -R u+w "$room"; rm -rf "$room"' EXIT
trap 'exit 1' HUP INT PIPE TERM

# The number of checks is in a file, so that those in a pipe or a subshell count.
echo 0 >"$room/log/count"
result() { # RESULT NAME
    read -r _count <"$room/log/count"
    echo $((_count + 1)) >"$room/log/count"
    printf '%s %s - %s\n' "$1" $((_count + 1)) "$2"
}
miss() { # NAME WHY FILE: the file is what was said
    : >"$room/log/failed"
    result 'not ok' "$1"
    { printf '#   %s: %s: %s\n' "${0##*/}" "$1" "$2" && sed 's/^/#   | /' "$3"; } >&6
}
skip() { result ok "$1 # SKIP $2"; } # NAME WHY
skip_all() { echo "1..0 # SKIP $1" && exit; } # WHY
done_testing() {
    holds 'nothing is left in the temporary folder' rmdir "$TMPDIR"
    holds 'nor any part of a file' not found "$room" -name '.luossavin-*'
    if [ -s "$stray" ]; then miss 'the test itself says nothing' 'it did' "$stray"; else result ok 'the test itself says nothing'; fi
    echo "1..$(cat "$room/log/count")"
    [ ! -e "$room/log/failed" ]
    exit
}

# Holds whatever a command tests.
holds() { # NAME COMMAND..
    _about=$1
    shift
    if "$@" >"$held" 2>&1; then result ok "$_about"; else miss "$_about" "$*" "$held"; fi
}
not() { ! "$@"; }                    # COMMAND..
found() { find "$@" | grep .; }      # WORDS-OF-FIND..
same() { holds "$1" cmp "$2" "$3"; } # NAME FILE FILE
silent() { holds "${1:-nothing is answered}" [ ! -s "$wrote" ]; } # NAME: nothing on standard output
has_size() { holds "$1" [ "$(wc -c <"$2")" -eq "$3" ]; } # NAME FILE BYTES
stretch() { tail -c +$(($2 + 1)) "$1" | head -c "$3"; } # FILE OFFSET LENGTH
# A file that comes in pieces, cut at these places.
pieces() { # FILE PLACE..
    _whole=$1 _from=0
    shift
    for _place; do
        stretch "$_whole" "$_from" $((_place - _from))
        sleep 0.1
        _from=$_place
    done
    tail -c +$((_from + 1)) "$_whole"
}
# Waits until a command holds, for ten seconds at most.
await() { # COMMAND..
    for _ in $(seq 100); do
        ! "$@" || return 0
        sleep 0.1
    done
    return 1
}
is_running() { [ "$(readlink "/proc/$1/exe")" = "$program" ]; } # PROCESS
# root may read and write anything: what must not be is tried as nobody
drop=''
[ "$(id -u)" -ne 0 ] || drop='setpriv --reuid=65534 --regid=65534 --clear-groups'

# Runs a command, and holds its status and what it says on standard error to what is expected of them.
run() { # NAME STATUS TEXT COMMAND..
    _about=$1 _wanted=$2 _words=$3
    shift 3
    "$@" >"$wrote" 2>"$said"
    judge "$_about" $? "$_wanted" "$_words"
}
judge() { # NAME STATUS WANTED TEXT
    if [ "$2" != "$3" ]; then
        miss "$1" "status $2, not $3" "$said"
    elif [ -z "$4" ] && [ -s "$said" ]; then
        miss "$1" 'it said something' "$said"
    elif [ -n "$4" ] && ! grep -qF -e "$4" "$said"; then
        miss "$1" "it did not say: $4" "$said"
    else
        result ok "$1"
    fi
}
try() { # NAME STATUS TEXT WORDS..: the tool
    _about=$1 _wanted=$2 _words=$3
    shift 3
    run "$_about" "$_wanted" "$_words" "$program" "$@"
}
# A check for each line of a table, whose words come behind those that are given here: table refused open <<end
table() { # CHECK WORDS.. <NAME|STATUS|TEXT|WORDS
    _check=$1
    shift
    # shellcheck disable=SC2086 # the words of a line
    while IFS='|' read -r _name _status _text _words; do $_check "$_name" "$_status" "$_text" "$@" $_words; done
}
# Runs the tool, which says nothing on standard error, and holds all that it writes on standard output to what is expected of it.
answers() { # NAME STATUS ANSWER WORDS..
    _about=$1 _wanted=$2 _lines=$3
    shift 3
    "$program" "$@" >"$wrote" 2>"$said"
    holds "$_about" [ "$? $(cat "$wrote" "$said")" = "$_wanted $_lines" ]
}
# Two checks: the tool says nothing, and then OUT, its last word, is the same as a file.
gives() { # NAME THEN FILE WORDS..
    _about=$1 _then=$2 _file=$3
    shift 3
    try "$_about" 0 '' "$@"
    for _out; do :; done
    same "$_then" "$_file" "$_out"
}
# Two checks: the tool says nothing on standard error, and a line on standard output.
tells() { # NAME THEN LINE WORDS..
    _about=$1 _then=$2 _line=$3
    shift 3
    try "$_about" 0 '' "$@"
    holds "$_then" grep -qxF -e "$_line" "$wrote"
}
# Two checks: a refusal leaves OUT, the file `out`, as it was.
kept() { echo 'what stood here before' >kept && cp kept out; }
refused() { # NAME STATUS TEXT WORDS..
    kept
    try "$@"
    same "$1: OUT is as it was" kept out
}
# Three checks: a refusal leaves OUT and SHELF, the word that ends in .shelf, as they were.
left() { # NAME STATUS TEXT WORDS..
    for _word; do case $_word in *.shelf) _shelf=$_word ;; esac done
    cp "$_shelf" before
    refused "$@"
    same "$1: SHELF is as it was" before "$_shelf"
}
# An answer that cannot be written.
full() { # NAME WORDS..
    _about=$1
    shift
    "$program" "$@" >/dev/full 2>"$said"
    judge "$_about" $? 66 'cannot write standard output: No space left on device'
}

iv=4c756f73736176696e20746573742121 # Luossavin test!!
iv12=4c756f73736176696e207465
cp "$here/sample/rough.txt" rough
: >empty
(
    umask 077
    cat "$here/sample/key" >key
    printf '\001\043\105\147\211\253\315\357\376\334\272\230\166\124\062\020' >raw # the same
    head -c 15 raw >short
)
set -- --key key --iv $iv --job 4711
"$program" seal "$@" --edition 1 rough rough.sealed
{ head -c 100 rough.sealed && printf 'x' && tail -c +102 rough.sealed; } >changed
# Sealed files with the name JOB.EDITION.
make_editions() { # JOB.EDITION..
    for _name; do "$program" seal --key key --iv $iv --job "${_name%.*}" --edition "${_name#*.}" rough "$_name"; done
}
# The sample in each mode, text.ctr and so on.
make_modes() { for _mode in cfb ofb ctr cbc; do "$program" encrypt --mode $_mode --key key --iv $iv rough text.$_mode; done; }

# Journals. Lines of hex digits as bytes, and a file as hex digits.
unhex() { perl -ne 'chomp; print pack "H*", $_'; }
hex() { od -A n -v -t x1 "$1" | tr -d ' \n'; } # FILE
sized() { printf '%08x%s' $((${#1} / 2)) "$1"; } # HEX
# A record in hex digits.
entry() { # DIRECTION MODE KEY LABEL DATA IV ROOM NUMBER OUTPUT
    printf '5452%02x%02x%04x%s%s%s%08x%02x%s\n' "$1" "$2" "$3" "$(sized "$4")" "$(sized "$5")" "$(sized "$6")" "$7" "$8" "$(sized "$9")"
}
# Three records, of RFC 8998, A.1, whose key is the sample's, and the keys.
make_records() {
    label=feedfacedeadbeeffeedfacedeadbeefabaddad2 rfc=00001234567800000000abcd
    text=aaaaaaaaaaaaaaaabbbbbbbbbbbbbbbbccccccccccccccccddddddddddddddddeeeeeeeeeeeeeeeeffffffffffffffffeeeeeeeeeeeeeeeeaaaaaaaaaaaaaaaa
    sealed=17f399f08c67d5ee19d0dc9969c4bb7d5fd46fd3756489069157b282bb200735d82710ca5c22f0ccfa7cbf93d496ac15a56834cbcf98c397b4024a2691233b8d
    sealed=${sealed}83de3541e4c2b58177e065a9bf7b62ec
    seals=$(entry 0 4 7 $label $text $rfc 80 0 $sealed)
    opens=$(entry 1 4 7 $label $sealed $rfc 64 0 $text)
    refuses=$(entry 1 4 7 ${label}00 $sealed $rfc 64 4 '')
    size=$((${#seals} / 2))
    (umask 077 && printf '7 %s\n1 00112233445566778899AABBCCDDEEFF\n' "$(cat key)" >keys)
}
# Replays, and holds the plain lines that are not 0 to what is expected of them.
replay() { # NAME STATUS LINES WORDS..
    _about=$1 _wanted=$2 _lines=$3
    shift 3
    "$program" replay --plain "$@" >"$wrote" 2>"$said"
    status=$?
    _shown=$(grep -v ' 0$' "$wrote" | tr '\n' ' ')
    holds "$_about" [ "$status $_shown" = "$_wanted $_lines${_lines:+ }" ]
}
