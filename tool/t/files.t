#!/bin/sh
# Files that cannot be read or written, and whose they are; descriptors; a disk that is full.
# shellcheck disable=SC2086 # drop is some words, or none
. "$(dirname "$0")/common.sh"
make_editions 4711.1 4711.2 4713.1
for edition in 1 2; do "$program" shelf put "$@" --edition $edition sound.shelf 4711.$edition; done
set -- --iv $iv --job 4711 --edition 1

mkdir folder
refused 'IN is missing' 66 'cannot read nowhere: No such file or directory' seal --key key "$@" nowhere out
refused 'the key is missing' 66 'cannot read the key nowhere: No such file or directory' seal --key nowhere --iv $iv --job 1 --edition 1 rough out
refused 'IN is a folder' 66 'cannot read folder: Is a directory' seal --key key "$@" folder out
try 'OUT is a folder' 66 'cannot write folder: Is a directory' seal --key key "$@" rough folder
try 'OUT is in a folder that is missing' 66 'cannot write nowhere/out: No such file or directory' seal --key key "$@" rough nowhere/out
has() { stat -c '%a %u %g' -- "$1"; } # FILE
for name in private 'a
private name'; do
    printf old >"$name"
    chmod 640 "$name"
    before=$(has "$name")
    try 'OUT is a file that not all may read' 0 '' seal --key key "$@" rough "$name"
    holds 'it still is one' [ "$(has "$name")" = "$before" ]
done
(umask 027 && try 'a new file' 0 '' seal --key key "$@" rough new)
holds 'has the permissions that the caller asks for' [ "$(stat -c %a new)" = 640 ]
cp key mykey
ln mykey hard
mkdir way
ln -s ../mykey way/soft
ln -s . through
for name in mykey ./mykey hard through/mykey; do
    try "OUT is the key, as $name" 66 "cannot write $name: it holds the key" open --key mykey "$@" rough.sealed "$name"
done
try 'OUT is the key that a link leads to' 66 'cannot write mykey: it holds the key' open --key way/soft "$@" rough.sealed mykey
for words in --key=mykey '--key mykey'; do
    "$program" open $words "$@" rough.sealed - >>mykey 2>"$said"
    judge "standard output is the key: $words" $? 66 'standard output is a file that is named elsewhere on the command line'
done
same 'the key is as it was' key mykey
kept
ln -s out link
try 'OUT is a link' 66 'cannot write link: it is a link' seal --key key "$@" rough link
same 'what it points to is as it was' kept out

# what must not be read or written
cp rough secret
mkdir closed
cp rough closed/out
chmod 000 secret
chmod 555 closed
chmod 711 "$room"
if $drop sh -c '[ -x "$1" ] && [ ! -w closed ]' sh "$program"; then
    cp key theirs.key
    [ -z "$drop" ] || chown 65534:65534 theirs.key
    run 'IN must not be read' 66 'cannot read secret: Permission denied' $drop "$program" seal --key theirs.key "$@" secret -
    run 'a folder that must not be written' 66 'cannot write closed/new: Permission denied' $drop "$program" seal --key theirs.key "$@" rough closed/new
    run 'a file in it' 66 'cannot write closed/out' $drop "$program" seal --key theirs.key "$@" rough closed/out
    same 'it is as it was' rough closed/out
else
    skip 'what must not be read or written' 'nobody cannot run the tool from here'
fi
if [ -n "$drop" ]; then
    mkdir -m 777 shared
    printf old >shared/out
    chmod 666 shared/out
    run 'OUT is whose the run must not give it to' 66 'cannot write shared/out, which belongs to user 0 and group 0' \
        $drop "$program" seal --key theirs.key "$@" rough shared/out
    holds 'it is as it was' [ "$(cat shared/out)" = old ]
    run 'the program is one process' 0 '' $drop prlimit --nproc=1 "$program" opens --key theirs.key "$@" rough.sealed
    printf old >theirs
    chown 65534:65533 theirs
    chmod 604 theirs
    try 'OUT belongs to someone else' 0 '' seal --key key "$@" rough theirs
    holds 'and still does' [ "$(has theirs)" = '604 65534 65533' ]
fi
chmod 755 closed

# descriptors
try 'IN is descriptor 3' 0 '' opens --key key "$@" /dev/fd/3 3<rough.sealed
try 'IN is descriptor 7' 0 '' opens --key key "$@" /dev/fd/7 7<rough.sealed
try 'and descriptor 8' 0 '' opens --key key "$@" /dev/fd/8 8<rough.sealed
try 'and descriptor 9' 0 '' opens --key key "$@" /dev/fd/9 9<rough.sealed
try 'the key is descriptor 8' 0 '' opens --key=/dev/fd/8 "$@" rough.sealed 8<key
try 'the key is descriptor 9' 0 '' opens --key=/dev/fd/9 "$@" rough.sealed 9<key
{ echo before && cat rough; } >wanted
for name in /dev/stdout /dev/fd/1 /proc/self/fd/1; do
    try "OUT is $name" 0 '' open --key key "$@" rough.sealed $name
    same 'it has the text' rough "$wrote"
    { echo before && "$program" open --key key "$@" rough.sealed $name; } | cat >out
    same 'also where it is a pipe' wanted out
done
try 'OUT is descriptor 9' 0 '' open --key key "$@" rough.sealed /dev/fd/9 9>out
same 'it has the text' rough out
try 'OUT is a descriptor that is closed' 66 'cannot write /dev/fd/9: Bad file descriptor' open --key key "$@" rough.sealed /dev/fd/9 9>&-
cp rough.sealed both
cp sound.shelf before
again='OUT is a file that is named elsewhere on the command line; expected another'
try 'OUT is a descriptor of IN' 66 "$again" open --key key "$@" both /dev/fd/9 9<>both
same 'which is as it was' rough.sealed both
try 'and of the shelf' 66 "$again" shelf find --job 4711 sound.shelf /dev/fd/9 9<>sound.shelf
same 'which is as it was' before sound.shelf

# a device that is full, and a limit
mkfifo pipe
timeout 20 cat pipe >through.txt &
try 'OUT is a pipe with a name' 0 '' open --key key "$@" rough.sealed pipe
wait
same 'what comes through is the text' rough through.txt
holds 'a pipe is still a pipe' [ -p pipe ]
try 'OUT is a full device' 66 'cannot write /dev/full: No space left on device' open --key key "$@" rough.sealed /dev/full
full 'standard output is a full device' open --key key "$@" rough.sealed -
nothing_beside() { holds 'nothing is left beside it' not found . -maxdepth 1 -name '*luossavin-*'; }
head -c 200000 /dev/zero >large
"$program" seal --key key "$@" large large.sealed
(trap '' XFSZ && ulimit -f 100 && refused 'no room for OUT' 66 'cannot write out: File too large' seal --key key "$@" large out)
nothing_beside
(ulimit -f 100 && refused 'a limit on files is no signal' 66 'cannot write out: File too large' seal --key key "$@" large out)

# what a run asks of the system: each file is opened once, and OUT and its folder are synced
if command -v strace >/dev/null && strace -o /dev/null true 2>/dev/null; then
    for name in fresh out; do
        run "open to $name" 0 '' strace -o calls -e trace=openat,fsync,linkat,rename,renameat,renameat2 "$program" open --key key "$@" rough.sealed $name
        case $name in fresh) wanted='fsync linkat fsync ' ;; *) wanted='fsync linkat rename fsync ' ;; esac
        holds 'the file is synced before it has its name, and the folder after that' \
            [ "$(sed -n 's/^rename[a-z0-9]*(/rename(/; s/^\(fsync\|linkat\|rename\)(.*) *= 0$/\1/p' calls | tr '\n' ' ')" = "$wanted" ]
        for read in rough.sealed key; do holds "$read is opened once" [ "$(grep -cF "\"$read\"" calls)" -eq 1 ]; done
    done
else
    skip 'what a run asks of the system' 'there is no strace'
fi

# a disk that is full
if [ -n "$drop" ] && mkdir disk && unshare -m mount -t tmpfs none disk 2>/dev/null; then
    cat >fill <<'end'
mount -t tmpfs -o size=64k none disk && cp kept disk/out && cp sound.shelf disk/shelf || exit 1
cat /dev/zero >disk/zeros 2>/dev/null
"$@"
status=$?
cmp kept disk/out && cmp sound.shelf disk/shelf && ls -A disk >beside
exit $status
end
    for words in 'open rough.sealed disk/new' 'open rough.sealed disk/out' 'shelf put 4713.1'; do
        rm -f beside
        case $words in
        shelf*) line='shelf put --unchecked --job 4713 --edition 1 disk/shelf 4713.1' ;;
        *) line="open --key key $* ${words#* }" ;;
        esac
        run "a full disk: $words" 66 ': No space left on device' unshare -m sh fill "$program" $line
        holds 'each file is as it was, and nothing is beside them' [ "$(tr '\n' ' ' <beside)" = 'out shelf zeros ' ]
    done
else
    skip 'a disk that is full' 'it takes root to make one'
fi
# where a file without a name cannot get one, as without /proc, it has one from the start, which is taken away
if [ -n "$drop" ] && unshare -m mount -t tmpfs none /proc 2>/dev/null; then
    without_proc() { unshare -m sh -c 'mount -t tmpfs none /proc && exec "$@"' sh "$program" "$@"; }
    rm -f fresh
    for name in fresh out; do
        run "without files that have no name: $name" 0 '' without_proc open --key key "$@" rough.sealed $name
        same 'it has the text' rough $name
        nothing_beside
    done
    kept
    run 'refused' 4 '4 InvalidTag' without_proc open --key key "$@" changed out
    same 'OUT is as it was' kept out
    (ulimit -f 100 && run 'no room for it' 66 'cannot write out: File too large' without_proc open --key key "$@" large.sealed out)
    same 'OUT is as it was' kept out
    nothing_beside
else
    skip 'without files that have no name' 'it takes root to be without /proc'
fi
try 'the next run is not in its way' 0 '' seal --key key "$@" rough out
done_testing
