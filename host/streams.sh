# The program's streams and its status, tried on a command that reads a script from standard input: it is read by `.` after counting.sh and runs nothing by itself. Whoever
# reads it has set work, a folder for files.

# Writes a script of some 59,000 bytes and its answers, of some 100,000, to long.smt2 and long.out: 200 names without a rule, whose days are asked for over and over.
make_long() {
    local names='' days='' line name
    for ((name = 0; name < 200; name++)); do names+=" n$name" days+=" (n$name 0)"; done
    {
        echo '(set-logic QF_IDL)'
        for ((name = 0; name < 200; name++)); do echo "(declare-fun n$name () Int)"; done
        echo '(check-sat)'
        for ((line = 0; line < 60; line++)); do echo "(get-value (${names# }))"; done
    } >"$work/long.smt2"
    {
        echo sat
        for ((line = 0; line < 60; line++)); do echo "(${days# })"; done
    } >"$work/long.out"
    [ "$(wc -c <"$work/long.smt2")" -le 65536 ] && [ "$(wc -c <"$work/long.out")" -gt 80000 ]
}

# Whether the command that was run last ended with a status, and said these words on standard error alone, nothing where there are none.
ended() { # STATUS [WORDS]
    local said=${2:+dates: $2}
    [ "$status" = "$1" ] && [ "$(cat "$work/said")" = "$said" ] || { echo "status $status, said: $(cat "$work/said")"; return 1; }
}

# Runs the command, with what is written in part and what is said in said.
run() { # COMMAND.. <SCRIPT
    "$@" >"$work/part" 2>"$work/said"
    status=$?
}

# Whether what was written is a first part of a file, and not all of it.
first_part() { # FILE
    local bytes
    bytes=$(wc -c <"$work/part")
    [ "$bytes" -lt "$(wc -c <"$1")" ] && head -c "$bytes" "$1" | cmp - "$work/part"
}

# A script that is padded by blanks to so many bytes.
padded() { # BYTES
    printf '%s' '(set-logic QF_IDL)(check-sat)'
    head -c $(($1 - 40)) /dev/zero | tr '\0' ' '
    printf '%s' '(check-sat)'
}

end_of_text() { run "$@" <<<'(set-logic QF_IDL) (check-sat)' && ended 0 && [ "$(cat "$work/part")" = sat ]; }
nothing() { run "$@" </dev/null; ended 0 && [ ! -s "$work/part" ]; }
at_exit() { run "$@" <<<'(set-logic QF_IDL) (exit) (check-sat)'; ended 0 && [ ! -s "$work/part" ]; }
refused() { run "$@" <<<'(set-logic QF_IDL) (check-sat) (pop 1) (check-sat)'; ended 1 && [ "$(cat "$work/part")" = $'sat\n(error "7")' ]; }
unsupported() { run "$@" <<<'(set-option :a 1)'; ended 0 && [ "$(cat "$work/part")" = unsupported ]; }
# With a size the script ends exactly there; the last bracket is its last byte.
of_size() { # BYTES COMMAND..
    local bytes=$1
    shift
    padded "$bytes" >"$work/padded"
    [ "$(wc -c <"$work/padded")" = "$bytes" ] && run "$@" <"$work/padded"
    if [ "$bytes" -le 65536 ]; then ended 0 && [ "$(cat "$work/part")" = $'sat\nsat' ]; else ended 1 && [ "$(cat "$work/part")" = '(error "11")' ]; fi
}
long_answers() { run "$@" <"$work/long.smt2"; ended 0 && cmp "$work/part" "$work/long.out"; }

full_disk() { "$@" <"$work/long.smt2" >/dev/full 2>"$work/said"; status=$?; ended 2 'the answers cannot be written: No space left on device'; }
closed_output() { "$@" <"$work/long.smt2" >&- 2>"$work/said"; status=$?; ended 2 'the answers cannot be written: Bad file descriptor'; }
no_reader() { { sleep 0.2; "$@" <"$work/long.smt2" 2>"$work/said"; } | :; status=${PIPESTATUS[0]}; ended 2 'the answers cannot be written: Broken pipe'; }
reader_leaves() {
    "$@" <"$work/long.smt2" 2>"$work/said" | head -c 5000 >"$work/part"
    status=${PIPESTATUS[0]}
    ended 2 'the answers cannot be written: Broken pipe' && [ "$(wc -c <"$work/part")" = 5000 ] && first_part "$work/long.out"
}
slow_reader() { "$@" <"$work/long.smt2" 2>"$work/said" | { sleep 0.3; cat >"$work/part"; }; status=${PIPESTATUS[0]}; ended 0 && cmp "$work/part" "$work/long.out"; }
# A file that may have 8 blocks of 1,024 bytes.
size_limit() { (ulimit -f 8 && run "$@" <"$work/long.smt2" && [ "$(wc -c <"$work/part")" = 8192 ] && ended 2 'the answers cannot be written: File too large' && first_part "$work/long.out"); }
folder_input() { run "$@" <"$work"; ended 2 'the script cannot be read: Is a directory' && [ ! -s "$work/part" ]; }
closed_input() { run "$@" <&-; ended 2 'the script cannot be read: Bad file descriptor' && [ ! -s "$work/part" ]; }
silent_failure() { "$@" <"$work/long.smt2" >/dev/full 2>&-; [ $? = 2 ]; }

# Streams that do not wait. Half a script, and then nothing for now, is no script: nothing is carried out. A small pipe whose reader is slow: what came is a first part, and
# all of it exactly where the status is 0; some of the runs end before their end.
no_waiting() { # COMMAND..
    python3 - "$work" "$@" <<'PYTHON'
import fcntl, os, subprocess, sys, time
work, command = sys.argv[1], sys.argv[2:]
wrong = []
beginning, end = os.pipe()
os.set_blocking(beginning, False)
os.write(end, b"(set-logic QF_IDL)\n(check-sat)\n(check-")
ran = subprocess.run(command, stdin=beginning, capture_output=True)
if (ran.returncode, ran.stdout, ran.stderr) != (2, b"", b"dates: the script cannot be read: Resource temporarily unavailable\n"):
    wrong.append(ran)
right = open(work + "/long.out", "rb").read()
cut = 0
for run in range(12):
    beginning, end = os.pipe()
    os.set_blocking(end, False)
    fcntl.fcntl(end, 1031, 4096)  # F_SETPIPE_SZ
    child = subprocess.Popen(command, stdin=open(work + "/long.smt2", "rb"), stdout=end, stderr=subprocess.PIPE)
    os.close(end)
    came = b""
    while True:
        piece = os.read(beginning, 300 + 100 * run)
        if not piece:
            break
        came += piece
        time.sleep(0.0005)
    os.close(beginning)
    said = child.stderr.read()
    status = child.wait()
    cut += status == 2
    if status == 0:
        fine = came == right and said == b""
    else:
        fine = status == 2 and right.startswith(came) and len(came) < len(right) and said == b"dates: the answers cannot be written: Resource temporarily unavailable\n"
    if not fine:
        wrong.append((status, len(came), right.startswith(came), said))
if cut == 0:
    wrong.append("no run met a pipe that was full")
print(*wrong, sep="\n", end="\n" if wrong else "")
sys.exit(1 if wrong else 0)
PYTHON
}

# All of it.
try_streams() { # NAME COMMAND..
    local name=$1 bytes
    shift
    command -v python3 >/dev/null || get_packages python3
    one "$name: the long script is made" make_long
    one "$name: the end of the text, status 0" end_of_text "$@"
    one "$name: an empty text, status 0" nothing "$@"
    one "$name: exit, status 0" at_exit "$@"
    one "$name: a refusal, status 1" refused "$@"
    one "$name: unsupported, status 0" unsupported "$@"
    for bytes in 40 8191 8192 8193 65535 65536 65537 70000; do one "$name: a script of $bytes bytes" of_size "$bytes" "$@"; done
    one "$name: answers longer than the bytes for them, status 0" long_answers "$@"
    one "$name: a full disk, status 2" full_disk "$@"
    one "$name: a closed output, status 2" closed_output "$@"
    one "$name: a pipe that nobody reads, status 2" no_reader "$@"
    one "$name: a reader that leaves, status 2" reader_leaves "$@"
    one "$name: a reader that is slow, status 0" slow_reader "$@"
    one "$name: a limit on the size of files, status 2" size_limit "$@"
    one "$name: a failure that cannot be told, status 2" silent_failure "$@"
    one "$name: a folder as input, status 2" folder_input "$@"
    one "$name: a closed input, status 2" closed_input "$@"
    one "$name: streams that do not wait, status 2" no_waiting "$@"
}
