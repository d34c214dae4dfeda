# Shared by the scripts of this folder; not run by itself. It finds the repository and the target that a script is run for, makes a
# temporary folder that is removed at the end, builds libsm and our Rust over it, and compiles C over the assembly in proved/.
# shellcheck shell=bash

repository=$(cd "$(dirname "${BASH_SOURCE[0]}")/.." && pwd)
rust="$repository/host/rust"
c="$repository/host/c"
# scripts that run side by side install one at a time
lock="${TMPDIR:-/tmp}/luossavin-install.lock"

die() {
    echo "$(basename "$0"): $*" >&2
    exit 2
}

# The comment at the top of a script is its help.
print_help() {
    sed -n '2,/^$/s/^# \{0,1\}//p' "$0"
}

# `work` is a folder for this run.
make_work() {
    work=$(mktemp -d -t luossavin.XXXXXX) || die "cannot make a temporary folder"
    trap 'rm -rf "$work"' EXIT
    trap 'exit 130' INT TERM
}

# what the scripts need from Debian's packages: host/packages --help
package_list="$repository/host/packages.list"

is_at_hand() { # COMMAND-OR-FILE
    command -v "$1" >/dev/null || [ -e "$1" ]
}

# packages_of NAME: the packages that the list has for it.
packages_of() {
    awk -F '|' -v name="$1" '{ gsub(/ /, "", $1) } $1 == name { print $2; found = 1 } END { exit !found }' "$package_list"
}

# need COMMAND-OR-FILE: installs what host/packages.list has for it where it is not at hand.
need() {
    local packages
    is_at_hand "$1" && return
    packages=$(packages_of "$1") || die "host/packages.list has no '$1'"
    # shellcheck disable=SC2086 # words
    install_packages $packages
}

install_packages() { # PACKAGE..
    echo "installing $*" >&2
    command -v apt-get >/dev/null || die "no apt-get to install $* with"
    # where the lists of packages are missing or old, they are fetched once
    (
        flock 9
        apt-get install -y --no-install-recommends "$@" ||
            { apt-get update && apt-get install -y --no-install-recommends "$@"; }
    ) 9>"$lock" >"$work/apt.log" 2>&1 ||
        { tail -5 "$work/apt.log" >&2; die "could not install $*: see above (root may be needed)"; }
}

# check_libsm FOLDER: that it is a folder of libsm with the four files that are built.
check_libsm() {
    local folder=$1 file missing=''
    [ -d "$folder" ] ||
        die "no folder '$folder': name a folder of libsm at commit 6a5943c1d7, the one that has src/sm4 in it"
    for file in cipher cipher_mode gcm error; do
        [ -r "$folder/src/sm4/$file.rs" ] || missing="$missing src/sm4/$file.rs"
    done
    [ -z "$missing" ] || die "'$folder' is not a folder of libsm: it has no$missing"
    command -v rustc >/dev/null || die "no rustc: the Rust is built with the installed one"
    while read -r sum file; do
        [ "$(without_tests "$folder/src/sm4/$file" | sha256sum | cut -d' ' -f1)" = "$sum" ] ||
            echo "note: src/sm4/$file is not the text of commit 6a5943c1d7, so answers may be others" >&2
    done <"$rust/libsm.sha256"
}

# The text of a Rust file down to its tests, without blank lines at its end.
without_tests() {
    sed '/^#\[cfg(test)\]/,$d' "$1" | sed -e :a -e '/^\n*$/{$d;N;ba' -e '}'
}

# build_libsm FOLDER: the four files, unchanged, with our mod lines, as $work/liblibsm.rlib.
build_libsm() {
    mkdir -p "$work/libsm/sm4"
    cp "$rust/libsm.rs" "$work/libsm/libsm.rs"
    cp "$1"/src/sm4/{cipher,cipher_mode,gcm,error}.rs "$work/libsm/sm4/"
    build_rust --crate-type rlib --crate-name libsm --cap-lints allow \
        "$work/libsm/libsm.rs" -o "$work/liblibsm.rlib"
}

# build_oracle FOLDER: the program that asks libsm, as $work/oracle.
build_oracle() {
    check_libsm "$1"
    build_libsm "$1"
    build_rust --crate-name oracle --extern libsm="$work/liblibsm.rlib" "$rust/main.rs" -o "$work/oracle"
}

# The compiler of Rust, with the words that go with it.
rustc=(rustc)

build_rust() {
    "${rustc[@]}" --edition 2021 -O "$@" 2>"$work/rustc.log" || { cat "$work/rustc.log" >&2; die "rustc failed"; }
}

# ---- targets

# take_target WORDS..: takes `--target NAME` off a script's words, which are then `words`, and finds the target: aarch64, x86_64 or
# x86_64-v3. LUOSSAVIN_TARGET says the same. Without either it is the best one that this machine runs by itself.
take_target() {
    target=${LUOSSAVIN_TARGET:-}
    words=()
    target_named=no
    if [ -n "$target" ]; then target_named=yes; fi
    while [ $# -gt 0 ]; do
        case $1 in
        --target)
            [ $# -gt 1 ] || die "--target takes a name: aarch64, x86_64 or x86_64-v3"
            target=$2 target_named=yes
            shift
            ;;
        *) words+=("$1") ;;
        esac
        shift
    done
    find_target
}

# The variant that the target is, as host/c/variant.c counts them; the sources of the library; and what the machine is.
find_target() {
    machine=$(uname -m)
    [ -n "${target:-}" ] || target=$(best_target)
    case $target in
    aarch64) architecture=aarch64 variant=3 library=("$repository/proved/aarch64.s" "$repository/lib/luossavin.c") ;;
    x86_64 | x86_64-v3)
        architecture=x86_64 variant=1
        if [ "$target" = x86_64-v3 ]; then variant=2; fi
        library=("$repository"/proved/x86_64{,-v3}.s "$repository"/lib/{choose-x86_64.s,luossavin.c})
        ;;
    *) die "no target '$target': it is aarch64, x86_64 or x86_64-v3" ;;
    esac
    # what the processor has chooses the variant; only where a better one is there must the plain one be asked for
    unset LUOSSAVIN_VARIANT
    if [ "$target" = x86_64 ] && is_native; then export LUOSSAVIN_VARIANT=x86_64; fi
}

best_target() {
    case $(uname -m) in
    aarch64) echo aarch64 ;;
    x86_64) if has_v3; then echo x86_64-v3; else echo x86_64; fi ;;
    *) die "the library is there for x86-64 and aarch64: this machine is $(uname -m)" ;;
    esac
}

# Whether this machine is an x86-64-v3, by what Linux says that it has.
has_v3() {
    local flags flag
    flags=$(sed -n '/^flags/{s/^[^:]*: //p;q}' /proc/cpuinfo)
    for flag in cx16 lahf_lm popcnt pni ssse3 sse4_1 sse4_2 avx avx2 bmi1 bmi2 f16c fma movbe abm xsave; do
        [[ " $flags " == *" $flag "* ]] || return 1
    done
}

# Whether this machine runs the target by itself.
is_native() {
    [ "$machine" = "$architecture" ] && { [ "$target" != x86_64-v3 ] || has_v3; }
}

# What emulates the target's machine, wherever it runs.
find_emulator() {
    need "qemu-$architecture"
    case $target in
    aarch64) emulator=(qemu-aarch64) ;;
    x86_64) emulator=(qemu-x86_64 -cpu qemu64) ;;
    # its vector instructions that the emulator has from 7.2 on
    x86_64-v3) emulator=(qemu-x86_64 -cpu max) ;;
    esac
}

# The C compiler and the binary tools for the target, and what runs its programs.
find_compiler() {
    if [ -z "${architecture:-}" ]; then find_target; fi
    prefix=''
    if [ "$machine" != "$architecture" ]; then prefix=$architecture-linux-gnu-; fi
    need "${prefix}gcc"
    compiler=("${prefix}gcc")
    runner=()
    if ! is_native; then
        find_emulator
        runner=("${emulator[@]}")
    fi
}

# how_it_runs: in words.
how_it_runs() {
    if is_native; then
        echo "natively on this machine${LUOSSAVIN_VARIANT:+, with LUOSSAVIN_VARIANT=$LUOSSAVIN_VARIANT}"
    else
        echo "under ${emulator[*]} $("${emulator[0]}" --version | sed -n '1s/.*version \([0-9.]*\).*/\1/p'), not natively"
    fi
}

# Says what is run, and how: the first line of every script's output.
say_target() {
    echo "target $target, run $(how_it_runs)"
}

# fetch ARCHITECTURE FOLDER PACKAGE..: unpacks Debian's packages for another architecture (its name for it) below FOLDER.
fetch() {
    local debian=$1 folder=$2
    shift 2
    mkdir -p "$folder"
    (
        set -- "${@/%/:$debian}"
        # where the lists of packages are missing or old, they are fetched once
        flock 9 && cd "$folder" && dpkg --add-architecture "$debian" &&
            { apt-get download "$@" || { apt-get update && apt-get download "$@"; }; } || exit
        for package in ./*.deb; do dpkg -x "$package" . && rm "$package" || exit; done
    ) 9>"$lock" >"$work/apt.log" 2>&1 || { tail -5 "$work/apt.log" >&2; die "could not fetch $* for $debian"; }
}

# Debian's name for the target's architecture.
debian_name() {
    if [ "$architecture" = x86_64 ]; then echo amd64; else echo arm64; fi
}

# The peers' headers and static libraries, for the target.
find_peers() {
    local folder="$work/peers"
    if [ "$machine" = "$architecture" ]; then
        need /usr/include/gcrypt.h
        need /usr/include/openssl/evp.h
        peers=()
        return
    fi
    fetch "$(debian_name)" "$folder" $(packages_of '[peers]')
    peers=(-I"$folder/usr/include" -I"$folder/usr/include/$architecture-linux-gnu" -L"$folder/usr/lib/$architecture-linux-gnu")
}

# What a program with peers in it is linked with, last.
peer_libraries=(-l:libgcrypt.a -l:libgpg-error.a -l:libcrypto.a)

# The program of host/smoke and host/faults, which run the same tests on other buffers: its sources.
tests=("$c"/test*.c "$c"/{layout,buffers,calls,rules,shelf_model,journal_model,hash_model,wrap,random}.c)

# compile WORDS..: a program over the library, which is linked in whole and so needs nothing of the target on the machine that runs it. It
# stops before its first line where another variant was chosen than the target's.
compile() {
    compile_shared -static -no-pie "$@"
}

# compile_shared WORDS..: one that uses the machine's own C library.
compile_shared() {
    "${compiler[@]}" -std=c11 -O2 -g -Wall -Wextra -I"$repository/include" -I"$c" -DEXPECTED_VARIANT="$variant" "$c/variant.c" "${library[@]}" \
        "$@" 2>"$work/cc.log" || { cat "$work/cc.log" >&2; die "the C compiler failed"; }
}

run() {
    "${runner[@]}" "$@"
}

# build_plugin NAME: a plugin of qemu-user, as $work/NAME.so.
build_plugin() {
    local version=1
    find_emulator
    # from qemu 9 on the interface is version 2 or later
    if [ "$("${emulator[0]}" --version | sed -n '1s/.*version \([0-9]*\).*/\1/p')" -ge 9 ]; then version=2; fi
    need gcc
    gcc -O2 -Wall -Wextra -shared -fPIC -DPLUGIN_VERSION=$version "$c/$1.c" -o "$work/$1.so" ||
        die "could not build the plugin"
}

# ---- Rust for another machine

# A Rust for the target: the installed one on the machine itself or where it has that standard library, and otherwise one from Debian's
# packages.
find_rust() {
    local triple=$architecture-unknown-linux-gnu
    if [ "$machine" = "$architecture" ]; then return; fi
    if ! [ -d "$("${RUSTC:-rustc}" --print sysroot 2>/dev/null)/lib/rustlib/$triple" ]; then fetch_rust; fi
    rustc=("${RUSTC:-rustc}" --target "$triple" -C "linker=${compiler[0]}" -C relocation-model=static
        -L "$work/lib")
    # the cross libm.a is a script that names a path of another machine
    mkdir -p "$work/lib" && ln -sf "/usr/$architecture-linux-gnu/lib/libm-2.36.a" "$work/lib/libm.a"
}

# depended PACKAGE NAME: the package that PACKAGE depends on and whose name begins so.
depended() {
    apt-cache depends "$1" | sed -n "s/^ *Depends: \($2[^ ]*\)$/\1/p"
}

# RUSTC and RUSTDOC, which cargo goes by too: those of Debian, with the standard libraries of both machines, in $work/rust.
fetch_rust() {
    local program std llvm own
    own=$(dpkg --print-architecture)
    apt-cache show $(packages_of '[rust]') >/dev/null 2>&1 || apt-get update >"$work/apt.log" 2>&1 || die "could not fetch the lists of packages"
    # these two have a version in their names
    std=$(depended $(packages_of '[rust-std]') libstd-rust-web)
    llvm=$(depended "$std" libllvm)
    fetch "$own" "$work/rust" $(packages_of '[rust]') "$std" "$llvm"
    fetch "$(debian_name)" "$work/rust" $(packages_of '[rust-std]')
    for program in rustc rustdoc; do
        cat >"$work/rust/$program" <<END
#!/bin/sh
export LD_LIBRARY_PATH='$work/rust/usr/lib:$work/rust/usr/lib/$machine-linux-gnu'
exec '$work/rust/usr/bin/$program' --sysroot '$work/rust/usr' "\$@"
END
        chmod +x "$work/rust/$program"
    done
    export RUSTC="$work/rust/rustc" RUSTDOC="$work/rust/rustdoc"
}
