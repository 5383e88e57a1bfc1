#!/usr/bin/env bash
# The first minute: what is shown while the program is proved and built, and the command ./dates, however it is called, with its streams and its status. rt ci, which comes
# before, has proved all; the program's archive is made here first, over what checks on this machine have kept, since rt ci keeps for itself alone. Then nothing is proved:
# in a copy of what the command needs, a stand-in for rt says what rt says, and puts that archive in place.
set -u
CDPATH='' cd -- "$(dirname -- "${BASH_SOURCE[0]}")/../.." || exit 1
. host/tools.sh
. host/counting.sh
. host/streams.sh
work=$(mktemp -d) || exit 1
trap 'rm -rf "$work"' EXIT
chmod 755 "$work"

one "tools/build makes the program" tools/build program || finish
kit=$(kit_folder) || stop "rt does not answer"

# An archive whose function writes nothing and says that all is well.
echo 'unsigned dates_main(unsigned char *text, unsigned long length) { return text == 0 || length == 0; }' >"$work/other.c"
"$kit/toolchain/bin/clang" --target=x86_64-unknown-linux-gnu -fPIE -c "$work/other.c" -o "$work/other.o" &&
    "$kit/toolchain/bin/llvm-ar" rcs "$work/other.a" "$work/other.o" || stop "no other archive"

# ---- The copy and the stand-in. PAUSE is how long a crate takes; with DO=fail one is not proved, with DO=refuse a source is refused before any proof, with DO=other the program
# writes something else, with DO=break rt fails. Like rt it is called in the folder of a static library, says nothing of crates below that are proved since before, and leaves
# the archive in out/.
tree=$work/tree
mkdir -p "$tree/tools" "$tree/host/c" "$work/bin"
cp dates "$tree/" && cp tools/build "$tree/tools/" && cp host/tools.sh "$tree/host/" && cp host/c/bare.c "$tree/host/c/" && cp -r include examples "$tree/" ||
    stop "no copy of the command"
printf '%s\n' '# Words.' 'meaning:' 'lent: meaning # here too' 'text:' 'export_record: lent' 'exports: export_record' 'exports_c staticlib: exports' 'program: lent text' 'program_c staticlib: program' 'dates: program' >"$tree/crates.txt"
for crate in meaning lent text export_record exports exports_c program program_c dates; do mkdir -p "$tree/crates/$crate/src" && echo one >"$tree/crates/$crate/src/lib.rt"; done
cat >"$work/bin/rt" <<STANDIN
#!/usr/bin/env bash
case \$1 in
doc) echo '$kit/START-HERE.md'; exit ;;
version) echo 'a kit'; exit ;;
esac
crate=\${PWD##*/}
echo "\$* \$crate" >>'$work/called'
case "\$*" in
lib | 'lib --target aarch64-unknown-linux-gnu') [ -f ../../crates.txt ] || exit 2 ;;
*) echo 'rt: not so'; exit 2 ;;
esac
[ "\${DO:-}" != break ] || { echo 'rt: cannot make a temporary folder'; exit 2; }
if [ "\${DO:-}" = refuse ]; then
    echo "\$PWD/src/lib.rt:7:1: error[unknown-name]: there is no such name"
    echo 'rt: mend these first: no library was built'
    exit 1
fi
case \$crate in
program_c) crates='meaning lent text program' ;;
exports_c) crates='meaning lent export_record exports' ;;
*) exit 2 ;;
esac
for below in \$crates \$crate; do
    if [ \$below != \$crate ] && cmp -s ../\$below/src/lib.rt ../\$below/out/stamp; then continue; fi
    mkdir -p ../\$below/out
    echo "rt: chose --jobs 2 for \$below"
    : >../\$below/out/begun
    sleep "\${PAUSE:-0}"
    echo "fn \$below::one: proved"
    if [ "\${DO:-}" = fail ] && [ \$below = lent ]; then
        echo "note: src/lib.rt:8:1: it is not proved that what the function ensures holds"
        echo "./proofs/one/Answers.antt:42:6: error: the two types differ"
        echo "./proofs/one/Answers.antt:49:6: error: another one"
        echo "logic=not-proved"
        echo "rt: the library lent did not build, so nothing above it was checked"
        exit 1
    fi
    echo "logic=proved functions=1"
    cp ../\$below/src/lib.rt ../\$below/out/stamp
done
case \$crate in
exports_c) echo archive >out/libexports_c.a ;;
*) if [ "\${DO:-}" = other ]; then cp '$work/other.a' out/libprogram_c.a; else cp '$PWD/$PROGRAM_ARCHIVE' out/libprogram_c.a; fi ;;
esac
STANDIN
chmod +x "$work/bin/rt"

PATH=$work/bin:$PATH
season=$tree/examples/season.smt2 right=$tree/examples/season.out

# Takes away what is built, and forgets the calls of rt.
forget() { : >"$work/called"; }
unbuild() { rm -rf "$tree/target" "$tree"/crates/*/out && forget; }

# Whether rt was called so often since.
called() { [ "$(wc -l <"$work/called")" = "$1" ] || { echo "rt was called:"; cat "$work/called"; return 1; } }

# Whether a command prints the answers to the season's script, and says nothing on standard error.
answers() { # COMMAND..
    "$@" >"$work/out" 2>"$work/err" || { echo "status $?"; cat "$work/err"; return 1; }
    diff "$work/out" "$right" && diff "$work/err" /dev/null
}

# Whether a command prints nothing, ends with 2, and says these words on standard error, without an rt call.
refuses() { # WORDS COMMAND..
    local words=$1 status
    shift
    "$@" >"$work/out" 2>"$work/err"
    status=$?
    [ "$status" = 2 ] && diff "$work/out" /dev/null && diff "$work/err" - <<<"dates: $words" || { echo "status $status"; return 1; }
}

# ---- Before anything is built.
unbuild
version=$(version_of_header)
says_version() { [ -n "$version" ] && [ "$("$tree/dates" --version)" = "dates $version" ] && called 0; }
one "--version says the version of the header, and builds nothing" says_version
says_help() { [ "$("$tree/dates" --help | head -n 1)" = "usage: dates [FILE]" ] && [ "$("$tree/dates" -h | wc -l)" -gt 10 ] && called 0; }
one "--help says how it is called, and builds nothing" says_help
one "a name that is wrong is refused" refuses "there is no file $work/none" "$tree/dates" "$work/none"
one "an empty name is refused" refuses "the name of the script is empty" "$tree/dates" ""
one "a folder is refused" refuses "$work is a folder, not a script" "$tree/dates" "$work"
one "two names are refused" refuses "usage: dates [FILE]" "$tree/dates" "$season" "$season"
one "an unknown option is refused" refuses "there is no option --sat; dates --help says what there is" "$tree/dates" --sat
cp "$season" "$work/secret.smt2" && chmod 000 "$work/secret.smt2"
as_nobody=()
[ "$(id -u)" != 0 ] || as_nobody=(setpriv --reuid=65534 --regid=65534 --clear-groups)
one "a file that may not be read is refused" refuses "$work/secret.smt2 may not be read" "${as_nobody[@]}" "$tree/dates" "$work/secret.smt2"
one "nothing was built for any of these" called 0
no_rt() { PATH=/usr/bin:/bin "$tree/dates" "$season"; }
one "without rt it says so" refuses "it needs the Rattle toolchain: rt is not on the path" no_rt

# ---- The build.
# What was said, with N for each number of seconds.
seconds_off() { sed -E 's/(built in |after |proved \()[0-9]+ s/\1N s/' "$work/err"; }
says_each_crate() {
    "$tree/dates" "$season" >"$work/out" 2>"$work/err" && diff "$work/out" "$right" && seconds_off | diff - <(
        echo 'dates: proving and building, 5 crates; this takes minutes the first time'
        echo 'dates: 1 of 5: meaning proved (N s)'
        echo 'dates: 2 of 5: lent proved (N s)'
        echo 'dates: 3 of 5: text proved (N s)'
        echo 'dates: 4 of 5: program proved (N s)'
        echo 'dates: 5 of 5: program_c proved, and its archive written'
        echo 'dates: proved and built in N s'
    ) && called 1
}
unbuild
one "the first call builds, says each crate in a line of its own on standard error, and answers" says_each_crate
again() { answers "$tree/dates" "$season" && called 1; }
one "the second call calls no rt" again
no_process() { PATH=$work/none "$tree/dates" "$season"; }
one "the way to a program that is built starts no other process: it works with nothing on the path" answers no_process
builds_again() { "$tree/dates" --build 2>"$work/err" && called 1 && [ "$(grep -c 'is proved since before$' "$work/err")" = 5 ]; }
one "--build makes no new archive where nothing changed" builds_again
changed() {
    echo two >"$tree/crates/program/src/lib.rt" && "$tree/dates" --build 2>"$work/err" && called 2 && seconds_off | diff - <(
        echo 'dates: proving and building, 5 crates; this takes minutes the first time'
        echo 'dates: 1 of 5: meaning is proved since before'
        echo 'dates: 2 of 5: lent is proved since before'
        echo 'dates: 3 of 5: text is proved since before'
        echo 'dates: 4 of 5: program proved (N s)'
        echo 'dates: 5 of 5: program_c proved, and its archive written'
        echo 'dates: proved and built in N s'
    )
}
one "where a source below the program changed, it does, and says what is proved since before" changed
other_kit() { sed -i '2s/.*/another kit/' "$tree/$PROGRAM_ARCHIVE.key" && "$tree/dates" --build 2>"$work/err" && called 3; }
one "and where another toolchain made the archive" other_kit
builds_library() {
    "$tree/tools/build" library 2>"$work/err" && seconds_off | diff - <(
        echo 'dates: proving and building, 5 crates; this takes minutes the first time'
        echo 'dates: 1 of 5: meaning is proved since before'
        echo 'dates: 2 of 5: lent is proved since before'
        echo 'dates: 3 of 5: export_record proved (N s)'
        echo 'dates: 4 of 5: exports proved (N s)'
        echo 'dates: 5 of 5: exports_c proved, and its archive written'
        echo 'dates: proved and built in N s'
    ) && called 4 && answers "$tree/dates" "$season"
}
one "the library is built beside the program" builds_library
library_is_there() { touch "$tree/crates/lent/src/lib.rt" && "$tree/tools/build" library 2>"$work/err" && diff "$work/err" /dev/null && called 4; }
one "and not again where no source has changed" library_is_there
for_arm() {
    "$tree/tools/build" arm 2>"$work/err" && called 6 && [ "$(tail -n 2 "$work/called")" = $'lib --target aarch64-unknown-linux-gnu program_c\nlib --target aarch64-unknown-linux-gnu exports_c' ] &&
        [ -f "$tree/target/staticlib/aarch64/libprogram.a" ] && [ -f "$tree/target/staticlib/aarch64/libexports.a" ] && answers "$tree/dates" "$season"
}
one "both archives for Arm are made, beside the others" for_arm

# Runs a command in a terminal, and prints each drawing of its line as a line.
in_terminal() { # COMMAND..
    command -v script >/dev/null || { echo "there is no script(1) to make a terminal with"; return 1; }
    TERM=xterm script -qec "$(printf '%q ' "$@")" /dev/null </dev/null | tr -d '\r' | sed 's/\x1b\[K/\n/g'
}
drawn() {
    PAUSE=0.6 in_terminal "$tree/dates" "$season" >"$work/out"
    grep -qx 'dates: 1 of 5 crates, 0:0[0-9] gone; now lent' "$work/out" && [ "$(grep -c '^dates: proved and built in' "$work/out")" = 1 ] &&
        ! grep -q 'proved (' "$work/out" && tail -n "$(wc -l <"$right")" "$work/out" | diff - "$right" || { cat "$work/out"; return 1; }
}
unbuild
one "on a terminal one line is drawn again, with the crate, how many of how many, and the time gone" drawn

# Whether a build fails with a status and ends with these two lines and the name of the log, without an answer.
fails() { # DO STATUS LINE LINE
    local status
    DO=$1 "$tree/dates" "$season" >"$work/out" 2>"$work/err"
    status=$?
    [ "$status" = "$2" ] && [ ! -s "$work/out" ] && [ ! -e "$tree/target/built" ] && [ -s "$tree/target/build.log" ] && seconds_off | tail -n 3 | diff - <(
        printf '%s\n' "$3" "$4" "dates: after N s nothing is built; $tree/target/build.log has all that was said"
    ) || { echo "status $status"; return 1; }
}
not_proved() { fails fail 2 'dates: lent is not proved' 'dates: its first error: crates/lent/proofs/one/Answers.antt:42:6: error: the two types differ'; }
unbuild
one "a crate that is not proved: its name, its first error, where the log is, status 2, no answer" not_proved
refused_source() { fails refuse 2 'dates: a source is refused before any proof' 'dates: its first error: crates/program_c/src/lib.rt:7:1: error[unknown-name]: there is no such name'; }
one "a source that is refused before any proof: its error" refused_source
writes_other() { fails other 2 'dates: 5 of 5: program_c proved, and its archive written' 'dates: the program does not print what examples/contradiction.out has'; }
one "a program that writes something else is not run" writes_other
unbuild
one "a toolchain that fails: its last lines and its status" fails break 2 'dates: rt ended with status 2; its last lines:' 'rt: cannot make a temporary folder'
forget
one "a build after one that failed works" says_each_crate
after_failed() { echo three >"$tree/crates/lent/src/lib.rt" && ! DO=fail "$tree/dates" --build 2>"$work/err" && not_proved; }
one "after a --build that failed, the program from before is not run" after_failed

# Sends a signal to a build and its group, as a terminal does, and looks at what it leaves. The gate itself may run where an interrupt is ignored, so the build begins with the signals as they
# are by default.
interrupt() { # SIGNAL STATUS
    local build status
    unbuild
    set -m
    PAUSE=1 env --default-signal=INT,TERM,HUP "$tree/tools/build" program library 2>"$work/err" </dev/null &
    build=$!
    set +m
    for _ in {1..50}; do
        [ ! -e "$tree/crates/meaning/out/begun" ] || break
        sleep 0.1
    done
    kill -s "$1" -- "-$build"
    wait "$build" 2>/dev/null
    status=$?
    [ "$status" = "$2" ] && [ ! -e "$tree/target/built" ] && [ ! -e "$tree/target/built-library" ] || { echo "status $status"; ls "$tree/target"; return 1; }
}
gone() { flock -n "$tree/target/build.lock" true && tail -n 1 "$work/err" | grep -q '^dates: interrupted after [0-9]* s; '; }
one "a build that is interrupted ends with 130 and leaves no stamp" interrupt INT 130
one "it says so, and takes rt with it" gone
one "so does one that is told to end" interrupt TERM 130
one "that, too, takes rt with it" gone
one "one that is killed leaves no stamp" interrupt KILL 137
after_killed() {
    "$tree/dates" "$season" >"$work/out" 2>"$work/err" && diff "$work/out" "$right" && head -n 1 "$work/err" | grep -qx 'dates: another build is under way; waiting for it'
}
one "the call after it waits for what is left of it, builds and answers" after_killed

# ---- However it is called. The program is built, and rt is called no more.
forget
for script in examples/*.smt2; do
    right=${script%.smt2}.out
    one "$script by its name" answers "$tree/dates" "$script"
done
right=$tree/examples/season.out
on_input() { "$tree/dates" "$@" <"$season"; }
one "on standard input" answers on_input
one "on standard input, as -" answers on_input -
one "as /dev/stdin" answers on_input /dev/stdin
piped() { cat "$season" | "$tree/dates" /dev/stdin; }
one "a pipe as /dev/stdin" answers piped
one "a process's output, <(..)" answers "$tree/dates" <(cat "$season")
mkfifo "$work/pipe"
by_fifo() {
    cat "$season" >"$work/pipe" &
    "$tree/dates" "$work/pipe"
}
one "a fifo" answers by_fifo
cp "$season" "$work/-a b.smt2"
in_folder() { (cd -- "$1" && shift && "$@"); }
one "a name that begins with a minus and has a blank, after --" answers in_folder "$work" tree/dates -- "-a b.smt2"
one "from another folder, both by a relative name" answers in_folder "$tree/examples" ../dates season.smt2
one "by sh" answers sh "$tree/dates" "$season"
one "by sh in its own folder" answers in_folder "$tree" sh ./dates examples/season.smt2
one "by sh without a folder" answers in_folder "$tree" sh dates examples/season.smt2
one "by bash" answers bash "$tree/dates" "$season"
mkdir -p "$work/links/deep"
ln -s "$tree/dates" "$work/links/whole"
ln -s ../../tree/dates "$work/links/deep/relative"
ln -s deep/relative "$work/links/chain"
ln -s whole "$work/links/to-whole"
ln -s "$tree" "$work/links/folder"
for link in whole deep/relative chain to-whole folder/dates; do one "through the link $link" answers "$work/links/$link" "$season"; done
one "through a link, by a relative name" answers in_folder "$work/links" ./chain "$season"
on_the_path() { PATH=$work/links:$PATH chain "$season"; }
one "through a link on the path" answers on_the_path
one "through a link, by sh" answers sh "$work/links/deep/relative" "$season"
words() {
    local line list=()
    while IFS= read -r line; do list+=("$line"); done < <("$tree/dates" --words)
    answers on_words "${list[@]}"
}
on_words() { "$@" <"$season"; }
one "by the words that --words prints" words
cp -r "$tree" "$work/same-times" && find "$work/same-times" -exec touch -h -d 2001-01-01 {} +
one "a copy whose files all have the same time" answers "$work/same-times/dates" "$season"
mv "$work/same-times" "$work/moved tree"
one "a copy that was moved" answers "$work/moved tree/dates" "$season"
one "rt was not called for any of these" called 0
closed() { "$tree/dates" /dev/stdin <&-; }
one "a closed standard input as /dev/stdin is refused" refuses "there is no file /dev/stdin" closed

# ---- Its streams and its status.
try_streams ./dates "$tree/dates"
by_name() { run "$tree/dates" "$work/long.smt2" && ended 0 && cmp "$work/part" "$work/long.out"; }
one "./dates: a long script by its name" by_name

# ---- When it is built again.
sed -i 's/^#define DATES_VERSION .*/#define DATES_VERSION "7.8.9"/' "$tree/include/dates.h"
builds_from_archive() {
    "$tree/dates" "$season" >"$work/out" 2>"$work/err" && diff "$work/out" "$right" && called 0 &&
        [ "$(grep 'program_c' "$work/err")" = 'dates: 5 of 5: program_c is proved since before' ] && tail -n 1 "$work/err" | grep -q '^dates: proved and built in '
}
one "where the header has another version, it is built again" builds_from_archive
echo 7.8.9 >"$tree/target/built"
forget
one "where the stamp is not whole, too" builds_from_archive
rm -f "$tree/target/dates"
forget
one "where the program is gone, too" builds_from_archive
rm -rf "$tree/$PROGRAM_ARCHIVE" "$tree/target/built" "$tree"/crates/*/out
forget
one "where its archive is gone, that is made again" says_each_crate

# ---- The way to it.
# Sets took to the microseconds of one run over the season's script.
run_once() { # COMMAND..
    local began=${EPOCHREALTIME/[.,]/}
    "$@" <"$season" >/dev/null
    took=$((${EPOCHREALTIME/[.,]/} - began))
}
# Of 200 runs of each, in turn, the shortest: other work on the machine only lengthens one.
quick() {
    local took bare=1000000 way=1000000 list
    mapfile -t list < <("$tree/dates" --words)
    for _ in {1..200}; do
        run_once "${list[@]}" && [ "$took" -ge "$bare" ] || bare=$took
        run_once "$tree/dates" "$season" && [ "$took" -ge "$way" ] || way=$took
    done
    echo "first: the program takes $bare us, ./dates $way us"
    [ $((way - bare)) -le 3000 ]
}
one "./dates takes at most 3 ms more than the program" quick

# ---- README.
# Whether a file stands in README, four blanks before each line that is not empty.
quoted() { [[ $(<README.md) == *$'\n'"$(sed 's/^./    &/' "$1")"$'\n'* ]]; }
for file in examples/first.{smt2,out} host/examples/short.{c,rs,out}; do one "README has $file as it is" quoted "$file"; done
no_long_line() { ! grep -nE '^.{121}' README.md; }
one "no line of README is over 120 characters" no_long_line
there() {
    local name wrong=0
    while IFS= read -r name; do [ -e "$name" ] || { echo "README names $name"; wrong=1; }; done < <(grep -oE '\]\([^)#:]+\)' README.md | sed 's/^](//; s/)$//' | sort -u)
    [ "$wrong" = 0 ]
}
one "README's links lead to files" there
command -v python3 >/dev/null || get_packages python3
one "docs/season.svg is what tools/picture draws" tools/picture --check
finish
