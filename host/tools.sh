# What the scripts of this folder share: installing what is missing, and building and running programs of Rust and C for x86-64, and of Rust for
# this machine. It is read by `.` from the top of the repository and runs nothing by itself.
#
# The toolchain runs on x86-64 alone. On Arm nothing is proved and no archive is made; with target/staticlib from such a machine, x86-64 programs over the archive are built
# and run under an emulator.

# The crate whose archive holds the exported entry, and the one whose archive holds the program as one function; and where the archives stand, for x86-64.
ENTRY=exports_c
PROGRAM=program_c
ARCHIVE=target/staticlib/libexports.a
PROGRAM_ARCHIVE=target/staticlib/libprogram.a

# The program that tools/build links.
BARE=target/dates

# The stamps that tools/build writes when the program, or the archive, is built.
PROGRAM_STAMP=target/built
LIBRARY_STAMP=target/built-library

machine=$(uname -m)
left_out=''

say() { printf 'host: %s\n' "$*"; }

die() {
    say "$*"
    exit 1
}

# Notes what could not be had, for the end of the run.
leave_out() { # WORDS
    left_out+="host: LEFT OUT: $*"$'\n'
}

# Installs Debian packages, and says so. Not 0 where that cannot be done.
get_packages() { # PACKAGE..
    command -v apt-get >/dev/null || { say "there is no apt-get to install: $*"; return 1; }
    [ "$(id -u)" = 0 ] || { say "only root can install: $*"; return 1; }
    say "installing $*"
    local log=target/host/install.log
    mkdir -p target/host
    local lists=own
    [[ " $* " != *:amd64* ]] || lists=both
    if [ "${updated:-}" != both ] && [ "${updated:-}" != "$lists" ]; then
        if [ "$lists" = both ]; then dpkg --add-architecture amd64 >>"$log" 2>&1; fi
        apt-get update >>"$log" 2>&1 || say "apt-get update failed; trying with the lists that are there"
        updated=$lists
    fi
    DEBIAN_FRONTEND=noninteractive apt-get install -y --no-install-recommends "$@" >>"$log" 2>&1 ||
        { say "apt-get could not install $*; the end of $log:"; tail -n 3 "$log"; return 1; }
}

# The same archives for this machine: for Arm the toolchain makes them on an x86-64 machine (tools/build arm).
native_archive() { # ARCHIVE
    if [ "$machine" = x86_64 ]; then echo "$1"; else echo "target/staticlib/$machine/${1##*/}"; fi
}

# Makes the library's archive ready. Not 0 where it is not proved.
need_archive() { tools/build library; }

# The folder of the toolchain.
kit_folder() {
    local guide
    guide=$(rt doc) && dirname -- "$guide"
}

# Prints the toolchain's own code of C that the program calls, for x86-64: an archive to a line.
kit_c_code() {
    local kit
    kit=$(kit_folder) && printf '%s\n' "$kit/c/libos_c.a" "$kit/c/liblibc_c.a"
}

# Prints the version, which stands in the header alone.
version_of_header() { sed -n 's/^#define DATES_VERSION "\(.*\)"$/\1/p' include/dates.h; }

# Makes a peer ready. Not 0 where it cannot be had.
need_peer() { # z3 or cvc5
    command -v "$1" >/dev/null || get_packages "$1"
}

# An emulated processor that says nothing of fast string moves: the emulator does these byte by byte, and the tests copy and compare whole tables.
export QEMU_CPU=${QEMU_CPU:-max,-erms,-fsrm}

# Runs an x86-64 program; on Arm a static one, the emulator runs no other.
run_x86_64() { # PROGRAM WORDS..
    if [ "$machine" = x86_64 ]; then "$@"; else qemu-x86_64 "$@"; fi
}

# Debian's own rustc and cargo: that rustc alone knows Debian's x86-64 standard library, and that cargo alone drives it.
debian_rustc() { dpkg -L rustc 2>/dev/null | grep -m 1 'bin/rustc$'; }
debian_cargo() { dpkg -L cargo 2>/dev/null | grep -m 1 '^/usr/bin/cargo$'; }
have_debian_rust() { [ -n "$(debian_rustc)" ] && [ -n "$(debian_cargo)" ]; }

# The rustc and cargo that build for this machine: those on the path where both are there, else Debian's.
have_own_rust() { command -v rustc && command -v cargo; } >/dev/null
native_rustc() { if have_own_rust; then command -v rustc; else debian_rustc; fi; }
native_cargo() { if have_own_rust; then command -v cargo; else debian_cargo; fi; }

# Makes ready what builds Rust programs for this machine. Not 0 where that cannot be had.
need_native() {
    have_own_rust || have_debian_rust || get_packages rustc cargo || return
    command -v cc >/dev/null || get_packages gcc libc6-dev
}

# Makes ready what builds and runs x86-64 Rust programs here. Not 0 where that cannot be had.
need_x86_64() {
    if [ "$machine" = x86_64 ]; then need_native; return; fi
    if have_debian_rust && command -v x86_64-linux-gnu-gcc >/dev/null && command -v qemu-x86_64 >/dev/null &&
        dpkg -s libstd-rust-dev:amd64 libc6-dev:amd64 >/dev/null 2>&1; then return 0; fi
    get_packages rustc cargo libstd-rust-dev:amd64 gcc-x86-64-linux-gnu libc6-dev:amd64 qemu-user
}

# Runs cargo for this machine.
cargo_native() { # WORDS..
    RUSTC=$(native_rustc) "$(native_cargo)" "$@"
}

# Runs cargo for x86-64. The words come after its command.
cargo_x86_64() { # COMMAND WORDS..
    local command=$1
    shift
    if [ "$machine" = x86_64 ]; then
        cargo_native "$command" "$@"
    else
        RUSTC=$(debian_rustc) CARGO_TARGET_X86_64_UNKNOWN_LINUX_GNU_LINKER=x86_64-linux-gnu-gcc CARGO_TARGET_X86_64_UNKNOWN_LINUX_GNU_RUNNER=qemu-x86_64 \
            CARGO_TARGET_X86_64_UNKNOWN_LINUX_GNU_RUSTFLAGS='-C target-feature=+crt-static' \
            "$(debian_cargo)" "$command" --target x86_64-unknown-linux-gnu "$@"
    fi
}

# What cargo is told at each command over the workspace, and where the programs are that it builds with these words.
WORKSPACE=(--quiet --locked --offline --release --manifest-path host/Cargo.toml --target-dir "target/host/cargo-$machine")
BUILT_NATIVE=target/host/cargo-$machine/release
BUILT_X86_64=$BUILT_NATIVE
[ "$machine" = x86_64 ] || BUILT_X86_64=target/host/cargo-$machine/x86_64-unknown-linux-gnu/release

# Builds a member of the workspace for this machine, or for x86-64.
build_native() { # MEMBER WORDS..
    cargo_native build "${WORKSPACE[@]}" -p "$@"
}
build_x86_64() { # MEMBER WORDS..
    cargo_x86_64 build "${WORKSPACE[@]}" -p "$@"
}

# Runs the examples in the comments of a library among the members, which is built, as x86-64 programs. On Arm cargo would leave them out. The version is what build.rs says.
test_docs_x86_64() { # MEMBER
    local -x DATES_VERSION
    DATES_VERSION=$(version_of_header)
    local words=(--edition 2021 --test --crate-name "$1" --extern "$1=$BUILT_X86_64/lib$1.rlib" "host/$1/src/lib.rs") rustc
    if [ "$machine" = x86_64 ]; then
        rustc=$(native_rustc)
        "${rustc%rustc}rustdoc" "${words[@]}"
    else
        rustc=$(debian_rustc)
        RUSTC_BOOTSTRAP=1 "${rustc%rustc}rustdoc" -Z unstable-options --target x86_64-unknown-linux-gnu --runtool qemu-x86_64 \
            -C linker=x86_64-linux-gnu-gcc -C target-feature=+crt-static "${words[@]}"
    fi
}

# Makes ready what builds and runs x86-64 programs of C and C++ here. Not 0 where that cannot be had.
need_c_x86_64() {
    if [ "$machine" = x86_64 ]; then
        if command -v gcc >/dev/null && command -v g++ >/dev/null; then return 0; fi
        get_packages gcc g++ libc6-dev
    else
        if command -v x86_64-linux-gnu-gcc >/dev/null && command -v x86_64-linux-gnu-g++ >/dev/null && command -v qemu-x86_64 >/dev/null &&
            dpkg -s libc6-dev:amd64 >/dev/null 2>&1; then return 0; fi
        get_packages gcc-x86-64-linux-gnu g++-x86-64-linux-gnu libc6-dev:amd64 qemu-user
    fi
}

# Builds a program of C or C++ for x86-64, as the standard says (c99, c++11), with every warning an error. The words come after the source.
build_c_x86_64() { # STANDARD SOURCE OUT WORDS..
    local standard=$1 source=$2 out=$3 compiler=gcc language=c
    shift 3
    [[ $standard != c++* ]] || { compiler=g++ && language=c++; }
    local words=(-O2 -Wall -Wextra -Wpedantic -Wconversion -Wshadow -Werror)
    [ "$machine" = x86_64 ] || { compiler=x86_64-linux-gnu-$compiler && words+=(-static); }
    "$compiler" -std="$standard" "${words[@]}" -x "$language" "$source" -x none "$@" -o "$out"
}
