#!/bin/sh
# The launcher, ./luossavin: where it runs from, a tool that is not built, and what a checkout says of itself.
# shellcheck disable=SC2086 # drop is some words, or none
. "$(dirname "$0")/common.sh"
set -- "$@" --edition 1

run 'the version' 0 '' "$tool" --version
holds 'is that of the checkout' grep -qxF "luossavin $(cat "$here/VERSION")" "$wrote"
holds 'with the kit that proved it' grep -qxF "proved by $(sed -n 's/^kit *//p' "$here/proved/made")" "$wrote"
holds 'and a commit' grep -q '^commit .' "$wrote"
ln -s "$tool" link
run 'through a link' 0 '' ./link opens "$@" rough.sealed
sealed=$PWD/rough.sealed key=$PWD/key
(cd "$here/docs" && run 'by another path' 0 '' ../luossavin opens --key "$key" --iv $iv --job 4711 --edition 1 "$sealed")
kept
run 'with no standard input' 66 'cannot read standard input: Bad file descriptor' "$tool" seal "$@" - out <&-
same 'OUT is as it was' kept out
"$tool" opens "$@" rough.sealed >&- 2>"$said"
judge 'with no standard output' $? 66 'cannot write standard output: Bad file descriptor'
run 'with no standard error' 4 '' sh -c '"$@" 2>&-' sh "$tool" open "$@" changed out
same 'OUT is as it was' kept out
run 'the key on standard input' 0 '' "$tool" opens --key - --iv $iv --job 4711 --edition 1 rough.sealed <key
run 'and IN too' 64 'expected standard input for one of --key and IN, not for both' \
    "$tool" opens --key - --iv $iv --job 4711 --edition 1 - <key

# a checkout with a cargo that builds nothing until it is told to
other="$room/check out"
mkdir -p "$other/rust" "$other/tool" "$other/target" "$room/bin" "$room/none"
cp -r "$tool" "$here/VERSION" "$here/sample" "$here/proved" "$other"
cp "$here/rust/Cargo.toml" "$other/rust"
cp "$here/tool/about" "$other/tool"
cat >"$room/bin/cargo" <<end
#!/bin/sh
echo "\$*" >>"$room/cargo.log"
[ ! -e "$room/broken" ] || { echo 'error: it is broken' >&2; exit 101; }
[ ! -e "$room/elsewhere" ] || exit 0
[ -z "\${CARGO_BUILD_TARGET-}" ] || exit 0
mkdir -p "$other/target/cargo/release"
cp "$program" "$other/target/cargo/release/luossavin"
end
printf '#!/bin/sh\necho "rustc $(cat "%s")"\n' "$room/rustc.version" >"$room/bin/rustc"
chmod +x "$room/bin/cargo" "$room/bin/rustc"
for name in sh dirname readlink find head sed cat mkdir mv rm cp; do ln -s "$(command -v $name)" "$room/none/$name"; done
launch() { # NAME STATUS TEXT [VARIABLE=VALUE..]
    name=$1 status=$2 text=$3
    shift 3
    run "$name" "$status" "$text" env PATH="$room/bin:$PATH" "$@" "$other/luossavin" opens --key key --iv $iv --job 4711 --edition 1 rough.sealed
}
launch 'without cargo' 69 'cargo is not on the PATH: Rust 1.63 or newer builds the tool (Debian and Ubuntu: apt install cargo' PATH="$room/none"
for version in 1.62.1 1.9.0; do
    echo $version >"$room/rustc.version"
    launch "with Rust $version" 69 "this is rustc $version: Rust 1.63 or newer builds the tool"
done
echo '1.63.0' >"$room/rustc.version"
if [ -n "$drop" ]; then
    chmod 711 "$room"
    chmod -R go+rX "$other" "$room/bin"
    for words in sael 'opens rough.sealed'; do
        run "nobody can build it: $words" 70 "the owner of $other runs $other/luossavin demo once" \
            $drop env PATH="$room/bin:$PATH" "$other/luossavin" $words
    done
fi
: >"$room/broken"
launch 'cargo fails' 70 'the tool is not built: what cargo said is above'
holds 'which is there' grep -qxF 'error: it is broken' "$said"
mv "$room/broken" "$room/elsewhere"
launch 'cargo builds it elsewhere' 70 "cargo has built it elsewhere than in $other/target/cargo/release"
rm "$room/elsewhere"
launch 'it is built on its first use, which is said' 0 'luossavin: building the tool, once' CARGO_BUILD_TARGET=nowhere
holds 'by cargo, with no network' grep -q -e '--offline --locked' "$room/cargo.log"
rm "$room/cargo.log"
launch 'and not on its second' 0 ''
holds 'cargo is not even asked' [ ! -e "$room/cargo.log" ]
sleep 0.05
touch "$other/proved/made"
launch 'a source that changed has it built anew' 0 'luossavin: building the tool, once'
launch 'what is built needs no cargo' 0 '' PATH="$room/none"

# what it says of itself
says() { # NAME LINE
    PATH=$room/bin:$PATH "$other/luossavin" --version >"$wrote" 2>"$said"
    holds "$1" grep -qxF -e "$2" "$wrote"
}
commit() { (cd "$other" && git add -A && git -c user.name=nobody -c user.email=nobody commit -q -m all); }
says 'its version' "luossavin $(cat "$here/VERSION")"
says 'a commit that it does not know' 'commit unknown'
if command -v git >/dev/null; then
    echo target/ >"$other/.gitignore"
    git init -q -b main "$other" && commit
    id=$(git -C "$other" rev-parse HEAD)
    says 'its commit' "commit $id"
    says 'no gate' 'gate not run on this commit'
    printf '%s\n' "$id" '7 passed, 0 failed' >"$other/target/gate"
    says 'a gate that passed on it' 'gate 7 passed, 0 failed'
    echo >"$other/new"
    says 'a file that is not of that commit' "commit $id-changed"
    says 'on which no gate passed' 'gate not run on this commit'
    commit
    says 'nor on the next one' 'gate not run on this commit'
fi
holds 'no part of a file' not found "$here" -name '*.luossavin-*'
done_testing
