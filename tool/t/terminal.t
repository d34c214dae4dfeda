#!/bin/sh
# On a terminal: how far a run is, and what is no text.
. "$(dirname "$0")/common.sh"
command -v script >/dev/null || skip_all 'there is no script, which makes a terminal'
make_modes
make_records
ln -s "$program" luossavin
typed() { # NAME STATUS TEXT LINE: a command line, and what the terminal shows
    SHELL=/bin/sh script -qec "$4" /dev/null >"$said"
    judge "$1" $? "$2" "$3"
}

# how far it is
yes "$seals" | head -n 4000 | unhex >journal
yes "$seals" | head -n 20 | unhex >brief
head -c 3000000 /dev/zero >some
typed 'a short run on a terminal' 0 'all 20 records agree' './luossavin replay --keys keys brief'
holds 'shows nothing else' not grep -q MiB "$said"
typed 'a long one shows how far it is' 0 'luossavin replay: 1 MiB so far' \
    '{ cat journal journal; sleep 1.2; cat journal journal; } | ./luossavin replay --keys keys -'
typed 'not where nobody sees it' 0 'all 12000 records agree' '{ cat journal journal; sleep 1.2; cat journal; } | ./luossavin replay --keys keys - 2>told'
holds 'nothing is said' [ ! -s told ]
typed 'on a terminal it shows how far it is' 0 'luossavin seal: 2 MiB so far' "{ cat some; sleep 1.2; cat some; } | ./luossavin seal $* --edition 1 - out"
typed 'and piece by piece' 0 'luossavin encrypt: 2 MiB so far' \
    "{ cat some; sleep 1.2; cat some; } | ./luossavin encrypt --mode ctr --key key --iv $iv - - >out"
typed 'a short run shows nothing' 0 '' "./luossavin seal $* --edition 1 rough out"
# a run that stands still for more than a second, in a file whose size is known; it may have ended before it could be stopped
for _ in 1 2 3 4 5 6 7 8 9 10; do cat journal; done >long
cat >stopped <<end
./luossavin replay --keys keys long &
until [ "\$(readlink /proc/\$!/exe)" = '$program' ] || ! kill -0 \$!; do :; done
kill -STOP \$!
sleep 1.2
kill -CONT \$!
wait \$!
end
for _ in 1 2 3 4 5 6 7 8 9; do
    SHELL=/bin/sh script -qec 'sh stopped' /dev/null >"$said"
    status=$?
    ! grep -q '% of ' "$said" || break
done
judge 'and how much of a file' "$status" 0 '% of '

# what is no text
expected='expected a file for OUT, not a terminal, since the output is binary; or --force'
typed 'sealed bytes and a terminal' 64 "$expected" "./luossavin seal $* --edition 1 rough -"
typed 'with --force' 0 "$(head -c 20 rough.sealed | tr -d '\n\r\000')" "./luossavin seal --force $* --edition 1 rough -"
typed 'text is written to a terminal' 0 'ROUGH DRAFT' "./luossavin open $* --edition 1 rough.sealed -"
tr -d '\r' <"$said" >shown
same 'nor does one whose text is shown there' rough shown
set -- --key key --iv $iv --offset 0
typed 'a range and a terminal' 64 "$expected" "./luossavin range $* rough -"
typed 'with --force' 0 "$(head -c 12 text.ctr)" "./luossavin range --force $* rough -"
typed 'what a range decrypts is written to one' 0 'ROUGH DRAFT' "./luossavin range --decrypt $* text.ctr -"
done_testing
