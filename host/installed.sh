# The part of host/installed that runs where neither the kit nor the checkout is, in a folder with the tar file; not run by itself.
# Its word: what runs a program of the machine that the tar file is for; nothing, where that is this one. A line for each check, and a
# summary; status 0 if all of them passed.
# shellcheck shell=sh disable=SC2086
set -u
runner=$1
cd "$(dirname "$0")" || exit 1
here=$PWD
said=$here/said
: >"$said"

passed=0 failed=0
pass() { passed=$((passed + 1)); printf 'ok      %s\n' "$1"; }
miss() { failed=$((failed + 1)); printf 'NOT OK  %s: %s\n' "$1" "$2"; sed 's/^/        | /' "$said"; }
skip() { printf 'skipped %s: %s\n' "$1" "$2"; }
# Holds whatever a command tests.
holds() { # NAME COMMAND..
    about=$1
    shift
    if "$@" >"$said" 2>&1; then pass "$about"; else miss "$about" "$*"; fi
}
# Holds the status of a command, and what it writes, to what is expected of them.
says() { # NAME STATUS TEXT COMMAND..
    about=$1 wanted=$2 text=$3
    shift 3
    "$@" >"$said" 2>&1
    status=$?
    if [ $status -ne "$wanted" ]; then
        miss "$about" "status $status, not $wanted"
    elif [ -z "$text" ] && [ -s "$said" ]; then
        miss "$about" 'it said something'
    elif [ -n "$text" ] && ! grep -qF -e "$text" "$said"; then
        miss "$about" "it did not say: $text"
    else
        pass "$about"
    fi
}
# What stands below a folder, with permissions and what links say.
shape() { # FOLDER
    find "$1" -printf '%P %y %m %l\n' | sort
}

echo '--- the tar file'
holds 'there is no kit here' sh -c '! command -v rt'
holds 'and no cargo' sh -c '! command -v cargo'
tar xzf luossavin-*.tar.gz || exit 1
made=$(echo luossavin-*-linux)
version=$(cat "$made/VERSION")
holds 'the sums are right' sh -c 'cd "$1" && sha256sum -c --quiet SHA256SUMS' sh "$made"
holds 'and are of every file' sh -c 'cd "$1" && [ "$(find . -type f ! -name SHA256SUMS | wc -l)" -eq "$(wc -l <SHA256SUMS)" ]' sh "$made"
for line in "luossavin $version" 'proved by rattle-kit-' 'commit ' 'gate '; do
    holds "it says: $line" grep -q "^$line" "$made/about"
done
cp "$made/README.md" kept
echo >>"$made/README.md"
says 'a file that is another is not installed' 2 'README.md: FAILED' make -C "$made" install PREFIX="$here/a"
holds 'nor is anything else' [ ! -e "$here/a" ]
cp kept "$made/README.md"

echo '--- installed'
mkdir "$here/other" "$here/other/bin"
shape "$here/other" >before
(umask 077 && make -s -C "$made" install PREFIX="$here/a place") >"$said" 2>&1 || miss 'make install, to a path with a blank' "$?"
(umask 077 && make -s -j 4 -C "$made" all install PREFIX="$here/other/") >"$said" 2>&1 || miss 'make install, to a folder that was there' "$?"
holds 'two are alike, but for where they are' sh -c 'diff -r -x installed -x luossavin.pc "$1" "$2"' sh "$here/a place" "$here/other"
holds 'everyone may read them' sh -c '! find "$1" ! -type l ! -perm -a=r | grep .' sh "$here/a place"
holds 'and nobody else write' sh -c '! find "$1" ! -type l -perm /go=w | grep .' sh "$here/a place"
for file in bin/luossavin bin/luossavin-opener include/luossavin.h lib/libluossavin.a lib/libluossavin.so lib/pkgconfig/luossavin.pc \
    share/man/man1/luossavin.1 share/bash-completion/completions/luossavin share/zsh/site-functions/_luossavin \
    share/fish/vendor_completions.d/luossavin.fish share/doc/luossavin/NOTICE share/doc/luossavin/LICENSE \
    share/doc/luossavin/README.md share/doc/luossavin/CHANGES.md share/doc/luossavin/docs/PROMISES.md; do
    holds "there is $file" [ -s "$here/a place/$file" ]
done
for file in Cargo.toml README.md LICENSE NOTICE .cargo-checksum.json src/lib.rs asm/x86_64.s asm/x86_64-v3.s asm/aarch64.s asm/choose-x86_64.s; do
    holds "the cargo package has $file" [ -s "$here/a place/share/cargo/registry/luossavin-$version/$file" ]
done
make -s -C "$made" install DESTDIR="$here/stage" PREFIX=/usr LIBDIR=/usr/lib/multi-arch >"$said" 2>&1 || miss 'a package' "$?"
holds 'a package has the library where it is told' [ -s stage/usr/lib/multi-arch/libluossavin.a ]
holds 'and says so' grep -qxF 'libdir=${prefix}/lib/multi-arch' stage/usr/lib/multi-arch/pkgconfig/luossavin.pc
holds 'no file knows where it was made' sh -c '! grep -rF "$1" stage' sh "$here/stage"
says 'a path that is not from the root on' 2 'expected a path from the root on for PREFIX' make -C "$made" install PREFIX=place
says 'a path that luossavin.pc could not carry' 2 'expected a plain path for PREFIX, not /a$b' make -C "$made" install PREFIX='/a$$b'
says 'a disk that is full' 2 "cannot write $here/full/" sh -c 'ulimit -f 40 && make -C "$1" install PREFIX="$2"' sh "$made" "$here/full"
holds 'make uninstall of what it left' make -s -C "$made" uninstall PREFIX="$here/full"
holds 'takes all of it away' [ ! -e "$here/full" ]
cp "$here/other/share/luossavin/installed" kept
holds 'make install once more' make -s -C "$made" install PREFIX="$here/other"
holds 'puts the same' cmp kept "$here/other/share/luossavin/installed"

echo '--- the tool'
tool="$here/a place/bin/luossavin"
iv=4c756f73736176696e20746573742121
(umask 077 && echo 0123456789abcdeffedcba9876543210 >key)
printf 'ROUGH\n' >rough.txt
printf 'FINAL\n' >final.txt
$runner "$tool" --version >told 2>&1
holds 'it says what it is' cmp told "$made/about"
ln -s "$tool" link
says 'through a link' 0 "luossavin $version" $runner ./link --version
if [ -z "$runner" ]; then
    says 'by its name alone' 0 'luossavin seal ' env PATH="$here/a place/bin:$PATH" luossavin help
fi
holds 'the page of the manual is the one that is shipped' cmp "$here/a place/share/man/man1/luossavin.1" "$made/tool/luossavin.1"
says 'bash completes its words' 0 'complete -o default -F _luossavin luossavin' \
    bash -c '. "$1"; complete -p luossavin' bash "$here/a place/share/bash-completion/completions/luossavin"
says 'the opener says what it is too' 0 "luossavin-opener $version" $runner "$here/a place/bin/luossavin-opener" --version
says 'the demo' 0 "It is not: the final's label is refused on the rough." $runner "$tool" demo
says 'and where the tar file was unpacked' 0 'Nothing was left behind.' $runner "$made"/*/luossavin demo
for edition in 1 2; do
    if [ $edition = 1 ]; then text=rough.txt; else text=final.txt; fi
    set -- --key key --iv $iv --job 4711 --edition $edition
    says "edition $edition is sealed" 0 '' $runner "$tool" seal "$@" $text $edition.sealed
    says 'and put on the shelf' 0 '' $runner "$tool" shelf put "$@" team.shelf $edition.sealed
done
says 'the rough is refused as the final' 4 '4 InvalidTag' $runner "$tool" opens "$@" 1.sealed
says 'the final is opened from the shelf' 0 'edition 2' $runner "$tool" shelf open --job 4711 --key key --iv $iv team.shelf opened.txt
holds 'as it was' cmp final.txt opened.txt
says 'wrong words name the tool as it was called' 64 './link help' $runner ./link sael

echo '--- the library'
export PKG_CONFIG_PATH="$here/other/lib/pkgconfig"
cp "$here"/other/share/doc/luossavin/examples/*.* .
says 'pkg-config knows it' 0 "$version" pkg-config --modversion luossavin
# the line by which an example says that it is compiled and run, with words in the place of those that it names
line() { # EXAMPLE [SHELF JOB KEY IV]
    sed -n '/pkg-config/{s/^[ *]*//;p;q;}' "$1" | sed "s|&& \./|\&\& $runner ./|; s|SHELF|${2-}|; s|JOB|${3-}|; s|KEY|'${4-}'|; s|IV|${5-}|"
}
says 'seal.c, by its line' 0 'sealed as edition 1 of job 4711: 59 bytes are 75' sh -c "$(line seal.c)"
says 'what it sealed opens as the rough' 0 'opens as edition 1: yes' $runner ./seal
says 'and not as the final' 0 'opens as edition 2: no' $runner ./seal
# the part of it that runs what is compiled
again() { line "$@" | sed 's/.*&& //'; }
ask() { # EXAMPLE
    says "$1: the final may be shown" 0 'job 4711: edition 2 may be shown, 6 bytes' sh -c "$(line "$1" team.shelf 4711 "$key" $iv)"
    says "$1: another job has none" 22 'job 4712: nothing may be shown, refused with 22' sh -c "$(again "$1" team.shelf 4712 "$key" $iv)"
    says "$1: another IV" 4 'refused with 4' sh -c "$(again "$1" team.shelf 4711 "$key" "${iv%1}2")"
    says "$1: a short IV" 10 'refused with 10' sh -c "$(again "$1" team.shelf 4711 "$key" 00)"
    says "$1: an IV of 18 bytes" 10 'refused with 10' sh -c "$(again "$1" team.shelf 4711 "$key" ${iv}0000)"
    for word in 4294972007 4711abc Smith -1 +4711 '' ' 4711' 4711.0 0x1267; do
        says "$1: '$word' is no job" 64 'no job' sh -c "$(again "$1" team.shelf "'$word'" "$key" $iv)"
    done
    for word in ${iv}0 ${iv%1}g "x$iv" "'$iv '"; do
        says "$1: an IV that is no hex" 64 'expected hex digits' sh -c "$(again "$1" team.shelf 4711 "$key" "$word")"
    done
    says "$1: a key that is no hex" 64 'expected hex digits' sh -c "$(again "$1" team.shelf 4711 final.txt $iv)"
    says "$1: a key of 15 bytes" 1 'refused with 1 ErrorBlockSize' sh -c "$(again "$1" team.shelf 4711 short.key $iv)"
    says "$1: no key" 66 '' sh -c "$(again "$1" team.shelf 4711 missing $iv) 2>/dev/null"
    says "$1: no shelf" 19 'refused with 19' sh -c "$(again "$1" final.txt 4711 "$key" $iv)"
}
key=$here/key
echo 0123456789abcdeffedcba98765432 >short.key
ask portal.c
if [ -z "$runner" ]; then ask portal.py; else skip portal.py 'there is no Python for that machine'; fi
says 'linked with the archive alone' 0 'opens as edition 2: no' \
    sh -c 'cc seal.c -o seal $(pkg-config --cflags luossavin) "$(pkg-config --variable=libdir luossavin)/libluossavin.a" && '"$runner"' ./seal'
PKG_CONFIG_PATH="$here/a place/lib/pkgconfig"
says 'with a blank in the path' 0 'opens as edition 2: no' \
    sh -c 'eval "cc seal.c -o seal $(pkg-config --cflags --libs luossavin)" && '"$runner"' ./seal'
readelf -dW "$here/other/lib/libluossavin.so" >dynamic
holds 'the shared library has its name and number' grep -q "SONAME.*\[libluossavin\.so\.${version%%.*}\]" dynamic
holds 'and needs no text to be rewritten' sh -c '! grep -q TEXTREL dynamic'
nm -D --defined-only "$here/other/lib/libluossavin.so" | sed 's/.* //' | sort >exported
sed -n 's/^\(struct [a-z_]* \|bool \|void \|const char \*\)\(luossavin_[a-z_]*\)(.*/\2/p' "$here/other/include/luossavin.h" | sort >declared
holds 'it exports what the header declares' [ -s declared ]
holds 'and no other name' cmp declared exported

echo '--- uninstalled'
echo mine >"$here/a place/lib/mine"
holds 'make uninstall' make -s -C "$made" uninstall PREFIX="$here/a place"
holds 'what others put there is left' [ "$(find "$here/a place" ! -type d)" = "$here/a place/lib/mine" ]
holds 'in its folder, and no other' [ "$(find "$here/a place" -type d | wc -l)" -eq 2 ]
says 'the other one runs on' 0 "luossavin $version" $runner "$here/other/bin/luossavin" --version
holds 'make uninstall of that' make -s -C "$made" uninstall PREFIX="$here/other"
shape "$here/other" >after
holds 'the folder is as it was before' cmp before after
holds 'make uninstall of a package' make -s -C "$made" uninstall DESTDIR="$here/stage" PREFIX=/usr
holds 'nothing is left of it' [ -z "$(ls -A stage)" ]
says 'what is not there' 2 'nothing of luossavin is installed' make -C "$made" uninstall PREFIX="$here/other"

printf '%s checks passed, %s did not\n' "$passed" "$failed"
[ "$failed" -eq 0 ]
