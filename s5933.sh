# shellcheck shell=bash
# What the commands s5933-log, s5933-hex and s5933-count share: building a program where that is needed, and running it. A command says
# its name, its crate, what its --build builds, the folder that it stands in, and, as an installed copy, its own folder; docs/COMMANDS.md
# says what the exit statuses mean.
# shellcheck disable=SC2154,SC2034
target=$here/target program=${own:-$here/target/bin}/$crate version=${own:-$here}/VERSION

say() { echo "$tool: $*" >&2; }
die() { say "${@:2}"; exit "$1"; } # STATUS WORDS...
build_nothing() { die 2 "$1: this is an installed copy, which builds nothing"; } # OPTION

# The options that every command has, each the only word: the command's own `help`, the version, and building.
# One of these ends the command; other words are its own.
take_option() { # WORDS...
    case ${1:-} in --help | --version | --build) ;; *) return 0 ;; esac
    [ $# = 1 ] || die 2 "$1 takes no other word, and has '${*:2}' behind it; $usage"
    case $1:${own:+installed} in
        --help:*) help ;;
        --version:*) printf '%s ' "$tool" && cat -- "$version" ;;
        --build:) build "${built[@]}" ;;
        *) build_nothing "$1" ;;
    esac
    exit
}

# Process ids of what runs beside the script, that of a group with a minus. A signal that ends the script kills it too; none of
# it has anything to put in order. (Without an id `wait` would wait for all there is.)
started=()
stop() { # SIGNAL
    [ "${#started[@]}" = 0 ] || { kill -KILL -- "${started[@]}"; wait "${started[@]#-}"; } 2>/dev/null
    exit $((128 + $1))
}
trap 'stop 1' HUP
trap 'stop 2' INT
trap 'stop 3' QUIT
trap 'stop 15' TERM

# After SIGKILL the script can kill nothing. What a child of the script becomes by `bound` is killed when the script ends, however it
# ends, and does not begin if the script has gone already.
# shellcheck disable=SC2016
bound=(setpriv --pdeathsig KILL bash -p -c '[ "$PPID" = "$0" ] && exec "$@"' "$$")

# ---- building: the commands' programs, and s5933, the archive of the C calls

# Of each its file, and the crates that rt makes it of. What rt makes of a crate it keeps in the crate's own out/, which rt ci sets aside;
# what the commands make of that stands in target/, where nothing else does.
programs=(s5933_log s5933_hex s5933_count)
declare -A file=([s5933]=$target/staticlib/libs5933.a) made_of=([s5933]='station_c driver_c')
for name in "${programs[@]}"; do file[$name]=$target/bin/$name made_of[$name]=$name; done

# What all of it is made of: one sum over all sources, and the kit's line.
origin() {
    (cd -- "$here" && find crates.txt crates/*/{src,specs,proofs} -type f -print0 | sort -z | xargs -0 sha256sum | sha256sum)
    cat -- "$(kit_home)/KIT-ID"
} 2>/dev/null

# mark NAME ORIGIN: its mark, which goes to target/NAME.sources: what it is made of, and the sum of its file as it is.
mark() {
    echo "$2"
    sha256sum <"${file[$1]}"
} 2>/dev/null

# unmade NAME...: those whose file is missing, was made of other sources or by another kit, or was changed by somebody else.
unmade() {
    local name origin
    origin=$(origin)
    for name; do
        [ -s "${file[$name]}" ] && [ "$(cat "$target/$name.sources" 2>/dev/null)" = "$(mark "$name" "$origin")" ] || echo "$name"
    done
}

# crates_of CRATE...: these crates and those below them, the kit's left out, each once.
crates_of() {
    awk -F: -v names="$*" '/^[a-z]/ { split($1, word, " "); uses[word[1]] = $2 }
        END {
            n = split(names, todo, " ")
            for (i = 1; i <= n; i++) if (todo[i] in uses && !seen[todo[i]]++) {
                print todo[i]
                more = split(uses[todo[i]], use, " ")
                for (k = 1; k <= more; k++) todo[++n] = use[k]
            }
        }' "$here/crates.txt"
}

# Progress, if the build takes longer than a moment: on a terminal one line that counts the seconds, else a line for each crate. Of a
# library that it need not prove again rt says nothing; it counts once what is above it is proved.
declare -A proved=()
shown=
show_progress() {
    local text="${#proved[@]} of $crates crates proved, $SECONDS s gone"
    [ "$SECONDS" -ge 2 ] || return 0
    [ -n "$shown" ] || say "building, which proves all that is built; from nothing this takes some minutes"
    if [ -t 2 ]; then printf '\r%s: %s ' "$tool" "$text" >&2; elif [ "$shown" != "${#proved[@]}" ]; then say "$text"; fi
    shown=${#proved[@]}
}

# run_rt VERB CRATE: rt in the crate's folder, as a group of its own, so that all of it can be killed. `rt run` ends with the status of the
# program, which it says that it runs once it has built it. What was printed is shown if nothing was built.
run_rt() {
    local line printed='' rt status=0 under='' built=''
    exec 5< <(cd -- "$here/crates/$2" && exec setsid "${bound[@]}" rt "$1" 2>&1 </dev/null)
    rt=$!
    started=("-$rt" "$rt")
    while IFS= read -r -t 1 -u 5 line || [ $? -gt 128 ]; do
        printed+=${line:+$line$'\n'}
        [[ ! $line =~ ^crate\ ([a-z0-9_]+):\  ]] || under=${BASH_REMATCH[1]}
        [[ ! $line =~ ^logic=proved\  || -z $under ]] || proved[$under]=yes
        show_progress
    done
    exec 5<&-
    wait "$rt" || status=$?
    [ "$1:$status" != lib:0 ] && [[ $'\n'$printed != *$'\nrt: running out/'"$2;"* ]] || built=yes
    if [ -n "$built" ]; then
        while IFS= read -r line; do proved[$line]=yes; done < <(crates_of "$2")
        show_progress
    fi
    [ -z "$shown" ] || [ ! -t 2 ] || echo >&2
    [ -n "$built" ] || { printf '%s' "$printed" >&2; die 2 "rt $1 failed in crates/$2"; }
    started=()
}

# on_pages CRATE FILE: its object, from a file of rt's, in which each loop over a piece of frames and each C call begin on a page; it is
# target/pages/CRATE.o. An emulator is slower where a loop crosses pages, which else is left to where a linker happens to put it.
on_pages() {
    local section out=$target/pages/$1.o sections=(frame_log::{feed_bytes,count} s5933_{log,step,hex_length,hex_export,hex_load})
    mkdir -p -- "$target/pages"
    {
        echo 'SECTIONS {'
        for section in "${sections[@]}"; do echo ".text.$section : ALIGN(4096) { *(.text.$section) }"; done
        echo '}'
    } >"$out.ld"
    "$(kit_home)/toolchain/bin/ld.lld" -r -m elf_x86_64 -T "$out.ld" -o "$out" --whole-archive "$2" || die 2 "could not make $out"
}

# For rt its stamp of a program, which has the program's sum, stands for the object too, even if that is lost. What rt proved and compiled
# is linked anew, as rt links it but on pages.
make_program() { # CRATE
    local out=$here/crates/$1/out new=${file[$1]}.new kit
    [ -s "$out/$1.o" ] || rm -f -- "$out/$1.stamp"
    run_rt run "$1"
    on_pages "$1" "$out/$1.o"
    kit=$(kit_home)
    mkdir -p -- "${new%/*}"
    { "$kit/bin/rattle-link" --target x86_64-unknown-linux-gnu --toolchain "$kit/toolchain" -o "$new" "$target/pages/$1.o" \
        "$kit"/c/lib{os,libc}_c.a >"$new.said" 2>&1 && mv -f -- "$new" "${file[$1]}" && rm -f -- "$new.said"; } ||
        { cat -- "$new.said" >&2; die 2 "could not link $1"; }
}

# rt compiles each crate by itself, so that no function has callers in both, and archives its object; the kit's llvm-ar puts the objects
# into one archive, the same bytes for the same objects.
make_archive() { # NAME
    local crate objects=() new=${file[$1]}.new
    for crate in ${made_of[$1]}; do
        run_rt lib "$crate"
        on_pages "$crate" "$here/crates/$crate/out/lib$crate.a"
        objects+=("$target/pages/$crate.o")
    done
    mkdir -p -- "${new%/*}"
    rm -f -- "$new"
    { "$(kit_home)/toolchain/bin/llvm-ar" qcsD "$new" "${objects[@]}" && mv -f -- "$new" "${file[$1]}"; } || die 2 "could not make ${file[$1]}"
}

# The mark comes last.
make_file() { # NAME
    local origin
    origin=$(origin)
    rm -f -- "$target/$1.sources"
    case ${file[$1]} in
        *.a) make_archive "$1" ;;
        *) make_program "$1" ;;
    esac
    [ -s "${file[$1]}" ] || die 2 "rt made no ${file[$1]}"
    mark "$1" "$origin" >"$target/$1.sources"
}

# Makes what is unmade, under the lock of target/, which all that a build starts has too.
build() { # NAME...
    local name todo
    [ -n "$(unmade "$@")" ] || return 0
    command -v rt >/dev/null || die 2 "nothing can be built: rt, of the Rattle kit, is not on the PATH"
    # shellcheck source=lock.sh
    . "$here/lock.sh" && take_lock "$here" "$tool" || exit 2
    mkdir -p -- "$target" 2>/dev/null || die 2 "$target cannot be written"
    SECONDS=0
    mapfile -t todo < <(unmade "$@")
    # shellcheck disable=SC2046
    crates=$(crates_of $(for name in "${todo[@]}"; do echo "${made_of[$name]}"; done) | wc -l)
    for name in "${todo[@]}"; do make_file "$name"; done
    exec 9>&-
}

# ---- running

# The kit's folder; none without the kit.
kit_home() {
    local rt
    rt=$(command -v rt) && dirname "$(dirname "$(readlink -f "$rt")")"
}

# The program is x86-64 code. Elsewhere, where the kit does not run, an installed copy's runs under the system's emulator.
find_emulator() {
    local name
    emulator=()
    [ "$(uname -m)" != x86_64 ] || return 0
    for name in qemu-x86_64 qemu-x86_64-static; do
        emulator=("$(command -v "$name")") && return
    done
    die 2 "this is x86-64 code, and qemu-x86_64 (Debian's package qemu-user) is not on the PATH"
}

# What the words name, in `files`. A word that begins with - is a file only if the first word is --, which is none; - alone is standard
# input, which is there once.
files=()
name_files() { # WORDS...
    local name input=0
    if [ "${1:-}" = -- ]; then shift; else
        for name; do [[ $name != -?* ]] || die 2 "$name is not understood; $usage"; done
    fi
    files=("$@")
    for name; do
        [ "$name" != - ] || [ $((input += 1)) = 1 ] || die 2 "- stands for standard input, and there is one; $usage"
        [ "$name" != - ] || continue
        [ -e "$name" ] || die 1 "$name: no such file"
        [ ! -d "$name" ] || die 1 "$name: is a directory"
        [ -r "$name" ] || die 1 "$name: may not be read"
    done
}

# The program, built where that is needed, and what it needs to run.
find_program() {
    local kit
    [ -n "$own" ] || build "$crate"
    kit=$(kit_home) || [ -n "$own" ] || die 2 "rt, of the Rattle kit, is not on the PATH"
    find_emulator
    lib=${own:-$kit/toolchain/lib}
    loader=$lib/ld-linux-x86-64.so.2
    { [ -r "$program" ] && [ -r "$loader" ]; } || die 2 "$program or $loader is missing"
}

# Standard input becomes what the command makes of it.
feeders=()
feed() { # COMMAND...
    exec < <(exec "${bound[@]}" "$@")
    feeders+=($!)
}

# The files, one after the other, as standard input, which ends where one cannot be read.
take_files() { # FILE...
    if [ $# -gt 1 ]; then
        # shellcheck disable=SC2016
        feed bash -p -c 'for file; do setpriv --pdeathsig KILL cat -- "$file" || exit; done' cat "$@"
    elif [ "${1:--}" != - ]; then
        exec <"$1" || exit 1
    fi
}

# What the feeders give begins here: an input that could not be read is no empty one, which the program would answer. Its first byte is
# waited for, and fed anew.
begin() {
    local LC_ALL=C byte feeder
    [ "${#feeders[@]}" != 0 ] || return 0
    if IFS= read -r -d '' -n 1 byte; then
        printf -v byte '\\%03o' "'$byte"
        # shellcheck disable=SC2016
        feed bash -p -c 'printf "$0" && exec cat' "$byte"
    else
        for feeder in "${feeders[@]}"; do wait "$feeder" || exit 1; done
    fi
}

# Whether a feeder had failed when the program ended before its input: the others end, or have ended, because nobody reads on.
feeders_failed() {
    local feeder
    exec <&-
    kill "${feeders[@]}" 2>/dev/null
    for feeder in "${feeders[@]}"; do
        wait "$feeder"
        case $? in 0 | 141 | 143) ;; *) return 0 ;; esac
    done 2>/dev/null
    return 1
}

# The program has no exit status of its own. It says in one digit on descriptor 3, a pipe without a name, how the run ended. A feeder
# may have failed: then the program got less than it should, and what went well for it, or had no set line, is a failed read.
run() {
    local status digit feeder
    exec 3<> <(:)
    "${bound[@]}" "${emulator[@]}" "$loader" --library-path "$lib" "$program" <&0 &
    started=($! "${feeders[@]}")
    wait "${started[0]}" 2>/dev/null
    status=$?
    echo >&3 # so that there is a line, with a digit in it or without
    read -r digit <&3
    case $digit:$status in
        0:*) for feeder in "${feeders[@]}"; do wait "$feeder" || exit 1; done; exit 0 ;;
        3:*) ! feeders_failed || exit 1; exit 3 ;;
        [124]:*) exit "$digit" ;;
        *:12[67]) exit 2 ;;
        *:141) exit 141 ;; # SIGPIPE: nobody reads the output any more
        *:129 | *:1[3-9][0-9]) die "$status" "signal $((status - 128)) ended the program" ;;
        *) die 1 "the program ended before its input did" ;;
    esac
}

# The program, over the files that the words name as one input.
run_files() { # WORDS...
    name_files "$@"
    find_program
    take_files "${files[@]}"
    begin
    run
}
