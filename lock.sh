# shellcheck shell=bash
# The lock of target/. What builds there, the commands and the project's own runs, takes it first and has it alone. It is the file
# target.lock, beside target/, which may be removed, and says who has it. Those whom its holder starts have it too, by descriptor 9.
# The commands tie what they start to themselves by `bound`, and know it as `started`; the other runs have neither.
# shellcheck disable=SC2154,SC2034

# The longest wait for it, in seconds.
lock_wait=3600

# take_lock FOLDER NAME: the lock of the folder's target/, under that name. It says for whom it waits, and fails if it can't have it.
take_lock() {
    local lock=$1/target.lock holder
    [ ! /dev/fd/9 -ef "$lock" ] || return 0
    { exec 9>>"$lock"; } 2>/dev/null || { echo "$2: $lock cannot be written" >&2; return 1; }
    if ! flock -n 9; then
        holder=$(<"$lock")
        echo "$2: waiting for ${holder:=another call}, which works in target/" >&2
        "${bound[@]}" flock -w "$lock_wait" 9 &
        started=($!)
        wait $! || { echo "$2: has waited $lock_wait s in vain for $holder" >&2; return 1; }
    fi
    echo "$2 (process $$)" >"$lock"
}
