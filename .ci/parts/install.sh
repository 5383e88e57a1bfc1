#!/usr/bin/env bash
# The installed product. A copy of the tree, with what is proved and built, is installed into an empty folder and taken away; then the program and the library do what
# they should from there alone: also the program on every case and generated script, with its streams and its status. first.sh and host.sh, which come before, have built the
# program and the library; a stand-in for rt in the copy proves nothing and makes no archive, as none of their sources has changed.
set -u
CDPATH='' cd -- "$(dirname -- "${BASH_SOURCE[0]}")/../.." || exit 1
. host/tools.sh
. host/counting.sh
. host/streams.sh
work=$(mktemp -d) || exit 1
trap 'rm -rf "$work"' EXIT
chmod 755 "$work"

[ -f "$PROGRAM_ARCHIVE" ] && [ -f "$LIBRARY_STAMP" ] || stop "the program or the library is not built; tools/build program library does that"
command -v cc >/dev/null || get_packages gcc libc6-dev || stop "there is no C compiler"
command -v pkg-config >/dev/null || get_packages pkg-config || stop "there is no pkg-config"

# ---- A copy of the tree, which is installed and goes.
tree=$work/tree prefix="$work/a home/.local" home="$work/a home"
mkdir -p "$tree/target" "$home"
tar -cf - --exclude='crates/*/out' dates install tools host include docs examples crates crates.txt CHANGES.md target/staticlib "$LIBRARY_STAMP" | tar -C "$tree" -xf - ||
    stop "no copy of the tree"
version=$(version_of_header)
mkdir "$work/bin"
cat >"$work/bin/rt" <<STANDIN
#!/bin/sh
case \$1 in
doc | version) exec '$(command -v rt)' "\$1" ;;
*) exit 2 ;;
esac
STANDIN
chmod +x "$work/bin/rt"
PATH=$work/bin:$PATH

# Runs install in the copy, with a home folder of its own.
install() { HOME=$home "$tree/install" "$@" >"$work/said" 2>&1 </dev/null || { cat "$work/said"; return 1; } }

one "it installs, by default below the home folder" install
stage_line() { [ "$(head -n 1 "$work/said")" = "install: into $prefix: bin/dates, lib/libdates.a and libdates.so, include/dates.h, lib/pkgconfig/dates.pc, share/man/man1/dates.1, share/dates, share/doc/dates" ]; }
one "it says first where it writes" stage_line
listing() { (cd "$prefix" && find . | LC_ALL=C sort); }
complete() {
    listing | diff - <(
        cat <<LIST
.
./bin
./bin/dates
./include
./include/dates.h
./lib
./lib/libdates.a
./lib/libdates.so
./lib/libdates.so.${version%%.*}
./lib/libdates.so.$version
./lib/pkgconfig
./lib/pkgconfig/dates.pc
./share
./share/dates
./share/dates/examples
./share/dates/examples/contradiction.out
./share/dates/examples/contradiction.smt2
./share/dates/examples/deadline.out
./share/dates/examples/deadline.smt2
./share/dates/examples/first.out
./share/dates/examples/first.smt2
./share/dates/examples/season.out
./share/dates/examples/season.smt2
./share/dates/examples/short.c
./share/dates/examples/short.out
./share/dates/installed
./share/doc
./share/doc/dates
./share/doc/dates/CHANGES.md
./share/doc/dates/SCRIPTS.md
./share/man
./share/man/man1
./share/man/man1/dates.1
LIST
    )
}
one "all that belongs there is there, and nothing else" complete
echo "gone with the next one" >"$prefix/share/dates/old" && echo share/dates/old >>"$prefix/share/dates/installed"
again() { install "$prefix" && complete; }
one "a second install over the first leaves the same, and takes away what the first alone had" again
mv "$tree" "$work/away" && chmod 000 "$work/away"

# ---- The program, with nothing around it.
examples=$prefix/share/dates/examples right=$examples/season.out season=$examples/season.smt2
dates() { env -i "$prefix/bin/dates" "$@"; }
answers() { # COMMAND..
    "$@" >"$work/out" 2>"$work/err" || { echo "status $?"; cat "$work/err"; return 1; }
    diff "$work/out" "$right" && diff "$work/err" /dev/null
}
refuses() { # WORDS COMMAND..
    local words=$1 status
    shift
    "$@" >"$work/out" 2>"$work/err"
    status=$?
    [ "$status" = 2 ] && diff "$work/out" /dev/null && diff "$work/err" - <<<"dates: $words" || { echo "status $status"; return 1; }
}
on_input() { dates "$@" <"$season"; }
for right in "$examples"/{contradiction,deadline,first,season}.out; do one "bin/dates on ${right##*/}" answers dates "${right%.out}.smt2"; done
one "bin/dates on standard input" answers on_input
one "bin/dates on -" answers on_input -
one "bin/dates on /dev/stdin" answers on_input /dev/stdin
one "bin/dates on a process's output" answers dates <(cat "$season")
one "bin/dates after --" answers dates -- "$season"
ln -s "$prefix/bin/dates" "$work/link"
one "bin/dates through a link" answers env -i "$work/link" "$season"
says_version() { [ "$(dates --version)" = "dates $version" ]; }
one "bin/dates says its version" says_version
says_help() { [ "$(dates --help | head -n 1)" = "usage: dates [FILE]" ] && [ "$(dates -h | wc -l)" -gt 6 ]; }
one "bin/dates says how it is called" says_help
one "bin/dates refuses a name that is wrong" refuses "there is no file $work/none" dates "$work/none"
one "bin/dates refuses an empty name" refuses "the name of the script is empty" dates ""
one "bin/dates refuses a folder" refuses "$work is a folder, not a script" dates "$work"
one "bin/dates refuses two names" refuses "usage: dates [FILE]" dates "$season" "$season"
one "bin/dates refuses an unknown option" refuses "there is no option --sat; dates --help says what there is" dates --sat
cp "$season" "$work/secret.smt2" && chmod 000 "$work/secret.smt2"
as_nobody=()
[ "$(id -u)" != 0 ] || as_nobody=(setpriv --reuid=65534 --regid=65534 --clear-groups)
one "bin/dates refuses a file that may not be read" refuses "$work/secret.smt2 may not be read" "${as_nobody[@]}" "$prefix/bin/dates" "$work/secret.smt2"
try_streams bin/dates env -i "$prefix/bin/dates"
by_name() { run dates "$work/long.smt2" && ended 0 && cmp "$work/part" "$work/long.out"; }
one "bin/dates: a long script by its name" by_name
no_help() { dates --help >/dev/full 2>"$work/said"; [ $? = 2 ]; }
one "bin/dates: help that cannot be written, status 2" no_help
# The independent reader says what each script prints; host/test has built it, here it is built without the exported entry.
on_every_script() {
    echo "$prefix/bin/dates" >"$work/words"
    "$BUILT_NATIVE/test-scripts" --program "$work/words" --folder "$work" --count 200 >"$work/tested" 2>&1 && tail -n 1 "$work/tested" | grep -qE '^[0-9]{4,} passed, 0 failed$' || { tail -n 20 "$work/tested"; return 1; }
}
build_tests() { need_native && build_native test-scripts --no-default-features; }
one "the tests of scripts build for this machine" build_tests
one "bin/dates on every case and generated script" on_every_script
static() { ! readelf -lW "$prefix/bin/dates" | grep -q INTERP; }
one "bin/dates is linked statically" static

# ---- The library.
declared() { sed -n 's/^uint32_t \(dates_[a-z_]*\)(.*/\1/p' "$prefix/include/dates.h" | LC_ALL=C sort; }
visible() { [ "$(declared | wc -l)" -ge 11 ] && nm -D --defined-only "$prefix/lib/libdates.so" | awk '{ print $3 }' | LC_ALL=C sort | diff - <(declared); }
one "the shared library shows what the header declares, and nothing else" visible
in_archive() { nm -g --defined-only "$prefix/lib/libdates.a" | awk 'NF == 3 { print $3 }' | LC_ALL=C sort | diff - <(declared); }
one "so does the archive" in_archive
export PKG_CONFIG_PATH=$prefix/lib/pkgconfig
named() { [ "$(readelf -dW "$prefix/lib/libdates.so" | sed -n 's/.*soname: \[\(.*\)\]/\1/p')" = "libdates.so.${version%%.*}" ]; }
one "the shared library is named by the first number of the version" named
known() { [ "$(pkg-config --modversion dates)" = "$version" ]; }
one "pkg-config knows the version" known
manual() { grep -q "\"dates $version\"" "$prefix/share/man/man1/dates.1" && ! grep -q '@' "$prefix/share/man/man1/dates.1"; }
one "the manual page has the version" manual

# Compiles the installed example with the words of pkg-config, which quotes what needs it, and runs it.
compile() { # OUT WORDS..
    local out=$1 words
    shift
    eval "words=($(pkg-config --cflags --libs dates))"
    cc -std=c99 -Wall -Wextra -Werror "$examples/short.c" "${words[@]}" "$@" -o "$work/$out"
}
shared() { compile shared && readelf -dW "$work/shared" | grep -q "NEEDED.*libdates.so.${version%%.*}" && LD_LIBRARY_PATH=$prefix/lib "$work/shared" | diff - "$examples/short.out"; }
one "the C example, over the shared library" shared
static_caller() { compile static -static && ! readelf -lW "$work/static" | grep -q INTERP && env -i "$work/static" | diff - "$examples/short.out"; }
one "the C example, linked statically" static_caller
mv "$prefix" "$work/elsewhere" && PKG_CONFIG_PATH=$work/elsewhere/lib/pkgconfig examples=$work/elsewhere/share/dates/examples
one "and after the folder was moved" static_caller
mv "$work/elsewhere" "$prefix"

# ---- And away again.
chmod 755 "$work/away" && mv "$work/away" "$tree"
echo "another's" >"$prefix/share/man/man1/other.1"
removed() { install --uninstall "$prefix" && listing | diff - <(printf '%s\n' . ./share ./share/man ./share/man/man1 ./share/man/man1/other.1); }
one "--uninstall takes away what was installed, and nothing else" removed
not_twice() { ! HOME=$home "$tree/install" --uninstall >"$work/said" 2>&1 && grep -qx "install: nothing was installed in $prefix: it has no share/dates/installed" "$work/said"; }
one "there is nothing to take away a second time" not_twice
mkdir -p "$prefix/share/dates" && echo ../keep >"$prefix/share/dates/installed" && echo kept >"$home/keep"
astray() { ! install --uninstall >"$work/out" && [ -f "$home/keep" ]; }
one "a list that leads out of the folder is not followed" astray
finish
