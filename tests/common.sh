# shellcheck shell=bash
# What tests/outside, tests/faults, tests/hextools and bench/bench share. Source it from the repository's top folder; it makes a
# temporary folder, $work, that goes when the script ends.
export LC_ALL=C
# shellcheck disable=SC2034
profiles=(registers mailboxes fifos transfers aborts unknown broken resets all polls firmware bursts)
warnings=(-Wall -Wextra -Wpedantic -Werror)
work=$(mktemp -d) || exit 2
trap 'rm -rf "$work"' EXIT
# shellcheck source=lock.sh
. ./lock.sh

# The kit runs on x86-64, and compiles for it. Its loader and its C library run the programs, as the commands do.
tools=$(dirname "$(dirname "$(readlink -f "$(command -v rt)")")")/toolchain
# shellcheck disable=SC2034
loader=("$tools/lib/ld-linux-x86-64.so.2" --library-path "$tools/lib")
# shellcheck disable=SC2034
program=target/bin/s5933_log
# shellcheck disable=SC2034
archive=target/staticlib/libs5933.a
# The calls in it, sorted.
# shellcheck disable=SC2034
c_calls=(s5933_hex_export s5933_hex_length s5933_hex_load s5933_log s5933_step)

passed=0
failed=0

verdict() { # NAME FINDINGS: passed if there are none
    if [ -z "$2" ]; then
        passed=$((passed + 1))
        echo "ok: $1"
    else
        failed=$((failed + 1))
        printf 'FAILED: %s\n%s\n' "$1" "$2"
    fi
}

finish() {
    echo "$passed passed, $failed failed"
    [ "$failed" = 0 ]
    exit
}

has() { command -v "$1" >/dev/null; }

# compiles COMPILER...: it makes a program of a small source text.
compiles() {
    printf '#include <stdio.h>\nint main(void) { return puts("") < 0; }\n' | "$@" -o "$work/probe" - 2>/dev/null
}

# fetch PACKAGE...: by apt-get, which may have to fetch its lists first.
fetch() {
    local get=(env DEBIAN_FRONTEND=noninteractive apt-get)
    [ "$(id -u)" = 0 ] || get=(sudo -n "${get[@]}")
    "${get[@]}" install -y --no-install-recommends "$@" && return
    "${get[@]}" update && "${get[@]}" install -y --no-install-recommends "$@"
}

# provide PACKAGES COMMAND...: installs the packages unless the command succeeds; prints what is wrong if that does not help.
provide() {
    local packages
    read -ra packages <<<"$1"
    shift
    "$@" && return
    fetch "${packages[@]}" >"$work/apt" 2>&1 9>&-
    "$@" && return
    grep -E '^(E:|sudo:)' "$work/apt" | head -n 3
    echo "error: '$*' fails, and apt-get could not mend it. Install by hand: ${packages[*]}"
}

# The tools, installed if missing; prints what could not be had.
provide_tools() {
    provide "gcc libc6-dev" compiles gcc -x c
    provide g++ compiles g++ -x c++
    provide make has make
}

# The log program and the archive, built if a source has changed; prints what is wrong.
build_rattle() {
    ./s5933-log --build >"$work/rattle" 2>&1 || cat "$work/rattle"
}

# compile OUTPUT WORDS...: a C program.
compile() {
    gcc -std=c11 -O2 "${warnings[@]}" -o "$@"
}

# compile_static OUTPUT WORDS...: a C program for the archive, statically linked.
compile_static() {
    gcc -std=c11 -O2 "${warnings[@]}" -static -Iinclude -o "$@"
}

# run_log FRAMES LOG [STATUS]: the log program, which is to end with the status, or 0; prints what is wrong.
run_log() {
    local status=0
    timeout 600 ./s5933-log <"$1" >"$2" 2>"$work/errors" || status=$?
    [ "$status" = "${3:-0}" ] || echo "s5933-log ended with status $status, not ${3:-0}: $(head -c 300 "$work/errors")"
}

# frames_of FILE: what follows its set line.
frames_of() {
    tail -n +2 "$1"
}

# first_difference FRAMES LOG OTHER [NAME]: the first line in which two logs differ, with its frame, which is one line further down
# its file. NAME says whose the other log is; the second program's, if it isn't given.
first_difference() {
    local n
    n=$(awk -v other="$3" '{ if ((getline line <other) <= 0 || line != $0) exit } { same = NR } END { print same + 1 }' "$2")
    echo "line $n, frame:   $(sed -n "$((n + 1))p" "$1" | head -c 60 | cat -v) (set $(head -n 1 "$1" | head -c 20 | cat -v))"
    echo "line $n, program: $(sed -n "${n}p" "$2" | head -c 60 | cat -v)"
    echo "line $n, ${4:-second}:  $(sed -n "${n}p" "$3" | head -c 60 | cat -v)"
}
