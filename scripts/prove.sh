# Proves the crates of the program and builds it, for ./handref, which reads this file where it is
# asked to. One call proves at a time: it holds out/lock, and so does everything that it starts.
# out/prover names the process of the script and the group of the processes that prove, each with
# the time at which it began, so that no other process is ever taken for them.

# shellcheck shell=sh disable=SC2034,SC2154 # variables of ./handref are meant
# shellcheck disable=SC2015 # A && B || fail: fail is meant where either of the two did not go well
progress=$kept/progress
log=$kept/prove.log

# Says how far a proof is, also to those who wait for it.
tell() {
    printf '%s\n' "$1" >>"$progress"
    say "$1"
}

own_crates() {
    "$top/scripts/sources" --crates | sed 's/:.*//'
}

# The time at which a process began, in ticks since the machine did, or nothing.
start_of() {
    { line=$(cat "/proc/$1/stat"); } 2>/dev/null || return 0
    line=${line##*) }
    # shellcheck disable=SC2086 # its words are meant
    set -- $line
    case ${1-} in '' | Z | X) ;; *) printf '%s' "${20}" ;; esac
}

# Names this script, and the group of a process that it has started.
note_prover() {
    {
        echo "script $$ $(start_of "$$")"
        [ -z "$child" ] || echo "group $child $(start_of "$child")"
    } >"$kept/prover.new" && mv -f "$kept/prover.new" "$kept/prover" ||
        fail 'out/ cannot be written'
}

# Waits for the lock, with a line each ten seconds where another holds it, and proves what is not
# proved by then.
prove_here() {
    command -v rt >/dev/null 2>&1 ||
        fail "the toolchain's command rt is not on the path (docs/RELEASE.md)"
    can_keep && : >>"$kept/lock" || fail 'out/ cannot be written, so the program is not built'
    exec 9<"$kept/lock"
    flock -n 9 || wait_for_other
    sum_sources || fail "$why"
    is_marked "$kept/handref" "$kept/built" || prove
    exec 9<&-
    rm -f "$kept/checked"
    kind=built program=$kept/handref
    say "the program of these sources is proved: $program, sha256 $program_sum"
}

wait_for_other() {
    waits=yes
    say 'another call proves the program, and is waited for (./handref --stop ends it)'
    waited=0
    until flock -w 10 9; do
        waited=$((waited + 10))
        say "waited for $waited seconds; $(tail -n 1 "$progress" 2>/dev/null)"
    done
    waits=
    sum_sources && fail_as_before
}

# Proves the crates of the program, several at a time, and builds it. The mark names the sources as
# they were when it began, and is only set where none was written meanwhile.
prove() {
    proves=yes
    rm -f "$kept/failed"
    : >"$kept/started" && : >"$log" && : >"$progress" || fail 'out/ cannot be written'
    sum_sources || fail "$why"
    wanted=$sources
    note_prover
    total=$(own_crates | wc -l)
    tell "proving $total crates; from nothing this takes half an hour to an hour and a half on \
four processors and 7.4 GB of memory, and a gate that runs here is waited for"
    prove_crates || not_proved "$?"
    build || not_built "$?"
    cmp -s "$kept/ran" "$top/crates/handref/stdout" ||
        fail "all $total crates are proved, but the program does not answer its example"
    rm -f "$kept/ran"
    tell "the last line of the proof: $(grep '^logic=' "$log" | tail -n 1)"
    keep_program
    proves=
    rm -f "$kept/prover" "$kept/started"
    tell "the program is built as $kept/handref"
}

# Keeps the program, and then its mark.
keep_program() {
    sum_sources && [ "$sources" = "$wanted" ] && is_unwritten ||
        fail 'a source was written while all were proved; ./handref --prove proves what has changed'
    cp "$top/crates/handref/out/handref" "$kept/handref.new" && chmod 755 "$kept/handref.new" &&
        program_sum=$(sum_of "$kept/handref.new") && {
        echo "sources $sources"
        echo "program $program_sum"
        echo "kit $(rt version 2>/dev/null | sed 1q)"
    } >"$kept/built.new" && mv -f "$kept/handref.new" "$kept/handref" &&
        mv -f "$kept/built.new" "$kept/built" ||
        fail 'out/ cannot be written'
}

# Whether no source was written since the proof began, not even with the same content.
is_unwritten() {
    # shellcheck disable=SC2046 # a name is a word
    newer=$(cd "$top/crates" && for name in $(own_crates); do
        for folder in src specs proofs; do
            [ ! -d "$name/$folder" ] || find "$name/$folder" -cnewer "$kept/started" || echo "$name"
        done
    done) && [ -z "$newer" ]
}

# Says of each crate when it is proved. The proof runs in a group of its own and in the background,
# so that an interrupt need not wait for it. One command proves all crates, several at a time; it
# looks over all sources first, and takes 7.5 GB of memory for that.
prove_crates() {
    memory=$(awk '$1 == "MemAvailable:" { print int($2 / 500000) }' /proc/meminfo)
    if [ "$memory" -ge 18 ]; then
        (cd "$top/crates/handref" &&
            exec setsid rt all check --jobs "$(at_once "$memory")") >>"$log" 2>&1 </dev/null &
    else
        # shellcheck disable=SC2046 # a name is a word
        setsid sh -c "$in_turn" sh "$top/crates" $(own_crates |
            grep -v '^handref$') >>"$log" 2>&1 </dev/null &
    fi
    child=$!
    note_prover
    count=0
    quiet_since=0
    seconds=0
    while kill -0 "$child" 2>/dev/null; do
        sleep 1 9<&-
        seconds=$((seconds + 1))
        tell_proved
        [ "$((seconds % 10))" -ne 0 ] || tell_quiet
    done
    wait "$child" && ended=0 || ended=$?
    child=
    tell_proved
    return "$ended"
}

# Proves the crates below the program one after the other, the lowest first, and says so in the
# words of that command.
# shellcheck disable=SC2016 # the shell that runs it replaces them
in_turn='
    cd "$1" && shift || exit 70
    for name in "$@"; do
        printf "== %s\n" "$name"
        (cd "$name" && exec rt lib) || {
            ended=$?
            printf "%s: failed (%s)\n" "$name" "$ended"
            exit "$ended"
        }
        printf "%s: ok\n" "$name"
    done
'

# Builds the program of the proved crates, and runs it once.
build() {
    tell 'all crates are proved; the program is built, in some minutes'
    (cd "$top/crates/handref" &&
        exec setsid rt run -- check --from phh <stdin) >"$kept/ran" 2>>"$log" &
    child=$!
    note_prover
    start_ticking 'the build goes on'
    wait "$child" && ended=0 || ended=$?
    stop_ticking
    child=
    return "$ended"
}

# Says that a proof goes on where no crate was proved for ten seconds. Those who wait for it say so
# themselves.
tell_quiet() {
    [ "$count" -ne "$quiet_since" ] ||
        say "$count of $total crates are proved, after $seconds seconds"
    quiet_since=$count
}

# How many crates are proved at a time: as many as there are processors, where each has 4.5 GB of
# memory.
at_once() {
    fit=$(($1 / 9))
    [ "$fit" -lt "$(nproc)" ] || fit=$(nproc)
    printf '%s' "$fit"
}

tell_proved() {
    for name in $(proved_crates | tail -n "+$((count + 1))"); do
        count=$((count + 1))
        tell "$count of $total: $name is proved"
    done
}

# The crates that are proved by now, as the log says it: below a crate's heading, or of one that was
# proved before, in the summary at the end.
proved_crates() {
    awk '
        /^== / { name = $2 == "summary" ? "" : $2 }
        /^logic=proved/ && name != "" { print name; told[name] = 1; name = "" }
        /^[a-z0-9_]+: ok$/ { sub(/: ok$/, ""); if (!($0 in told)) print }
    ' "$log"
}

# Ends where not all crates were proved: with the first that the log names as failed, or else by
# saying that the proof was cut off. A crate that fails with status 1 is a failed proof, which only
# ./handref --prove tries again.
not_proved() {
    failed=$(sed -n 's/^\([a-z0-9_]*\): failed (\(-\{0,1\}[0-9]*\))$/\1 \2/p' "$log" | sed 1q)
    [ "${failed#* }" != 1 ] && [ "$1" -ne 1 ] || echo "sources $wanted" >"$kept/failed"
    rm -f "$kept/prover"
    if [ -n "$failed" ]; then
        tell "${failed%% *} was not proved: $log tells why"
    elif [ "$1" -eq 1 ]; then
        tell "the proof failed: $log tells why"
    else
        tell "the proof was cut off (status $1) with $count of $total crates proved, which \
are kept: ./handref --prove goes on, and $log tells more"
    fi
    exit 70
}

# Ends where all crates were proved and the program was not built.
not_built() {
    rm -f "$kept/prover"
    tell "all $total crates are proved, but the program was not built (status $1): \
./handref --prove goes on, and $log tells more"
    exit 70
}


# Ends a proof that another call has begun: its script, which ends what it has started, or else the
# group alone.
stop() {
    [ -f "$kept/lock" ] && exec 9<"$kept/lock" && ! flock -n 9 || {
        say 'no proof runs here'
        return
    }
    read_prover
    if [ -n "$script" ]; then
        kill -TERM "$script" 2>/dev/null
    elif [ -n "$group" ]; then
        kill -TERM "-$group" 2>/dev/null
    else
        fail "out/lock is held, and not by a proof that $kept/prover names: nothing is ended"
    fi
    flock -w 20 9 || end_by_force
    say 'the proof is ended; what was proved is kept'
}

end_by_force() {
    read_prover
    [ -z "$group" ] || kill -KILL "-$group" 2>/dev/null
    [ -z "$script" ] || kill -KILL "$script" 2>/dev/null
    flock -w 5 9 || fail 'the proof was told to end, and did not in 25 seconds'
}

# The script and the group of a proof, where they are the ones that were noted. A group whose first
# process has ended is the one that was noted where a process of it holds the lock.
read_prover() {
    script='' group=''
    while read -r what id began; do
        [ -n "$began" ] || continue
        case $what in
        script) [ "$(start_of "$id")" != "$began" ] || script=$id ;;
        group) [ "$(start_of "$id")" != "$began" ] && ! holds_lock "$id" || group=$id ;;
        esac
    done 2>/dev/null <"$kept/prover"
}

# Whether a process of a group holds the lock.
holds_lock() {
    for process in /proc/[0-9]*; do
        { line=$(cat "$process/stat"); } 2>/dev/null || continue
        line=${line##*) }
        # shellcheck disable=SC2086 # its words are meant
        set -- "$1" $line
        # shellcheck disable=SC3013 # dash, bash and busybox know -ef
        [ "${4-}" != "$1" ] || [ ! "$process/fd/9" -ef "$kept/lock" ] || return 0
    done
    return 1
}
