# Runs the program. ./handref and the installed bin/handref read this file and words.sh. The
# program replaces the shell if possible. If the reader of its output has ended, it ends as other
# filters do.

# shellcheck shell=sh disable=SC2154 # words.sh sets slip and help_is
hands='' told='' ended='' stays='' work='' spare='' shut='' line_end=''

# Runs a program with words. It asks the C library for large pages, so that the kernel hands out
# the memory of many hands in fewer pieces; a library that does not know them ignores this. The
# program replaces the shell where nothing can be left to say: not at a terminal, nor if the words
# are no command, nor if the output is a pipe, nor if the caller asks for the shell (`stays`).
run_program() {
    GLIBC_TUNABLES=glibc.malloc.hugetlb=1${GLIBC_TUNABLES:+:$GLIBC_TUNABLES}
    export GLIBC_TUNABLES
    if [ -p /dev/stdout ]; then
        run_in_pipe "$@"
    elif [ -t 1 ] && [ "$(printf '\033\n' | shown 2>/dev/null)" = '\x1b' ]; then
        run_at_terminal "$@"
    elif [ -z "$stays" ] && [ ! -t 2 ] && wanted "$@"; then
        exec "$@"
    elif { : >&1; } 2>/dev/null; then
        listen "$@"
    else
        "$@"
        ended=$?
    fi
    [ -z "$told" ] || printf '%s\n' "$told" >&2
    say_more "$@"
    [ "$ended" -le 128 ] || die_of "$ended"
    exit "$ended"
}

# Says which word is wrong where the words are no command; and at a terminal what takes a file that
# is over a limit of the input.
say_more() {
    case $ended:$told in
    2:*) wanted "$@" || tell_slip ;;
    7:'limit: input bytes '* | 7:'limit: hands '* | 7:'limit: moves of the file '*)
        [ ! -t 2 ] || echo 'handref: handref many takes files of any length' >&2
        ;;
    esac
}

# Says which word is wrong, and where help is.
tell_slip() {
    printf 'handref: %s\n' "$slip ($help_is)" | shown >&2
}

# Makes the file that the last word names the standard input.
open_hands() {
    why='it cannot be read'
    [ -e "$hands" ] || why='there is no such file'
    [ ! -d "$hands" ] || why='it is a folder, and handref many takes folders'
    [ ! -d "$hands" ] && { command exec <"$hands"; } 2>/dev/null && return
    printf 'handref: %s\n' "$hands: $why" | shown >&2
    exit 5
}

# Calls a command without its last word.
without_last() {
    left=$#
    for word in "$@"; do
        shift
        left=$((left - 1))
        [ "$left" -eq 0 ] || set -- "$@" "$word"
    done
    "$@"
}

# Whether the words after a program are those of a command.
wanted() {
    shift
    is_command "$@"
}

# Runs a program whose output is a pipe. It ignores SIGPIPE, so that it ends with `write fault` and
# 6 where nobody reads the pipe any more; other filters are ended by the signal and say nothing, and
# so is this shell then. Where its caller ignores the signal, no shell can take it back, and the
# line and the status of the program remain. A shell that is killed takes the program with it, where
# setpriv can see to that.
run_in_pipe() {
    if command -v setpriv >/dev/null; then
        listen setpriv --pdeathsig KILL "$@"
        case $told in *'setpriv: '*) listen "$@" ;; esac
    else
        listen "$@"
    fi
    if [ "$ended" -eq 6 ] && has_no_reader; then die_of 141; fi
}

# Runs a program whose output is a terminal. Names can have control characters, which the terminal
# would obey.
run_at_terminal() {
    case $2 in report | session) ! wanted "$@" || plain_names "$@" ;; esac
    find_spare
    eval "exec $spare>&1"
    terminal=$spare
    find_spare
    shut="$terminal>&- $spare>&-"
    told=$(eval "{
        { listen \"\$@\" && printf '%s %s\n' \"\$ended\" \"\$told\" >&$spare; } |
            shown >&$terminal
    } $spare>&1")
    eval "exec $terminal>&-"
    ended=${told%% *} told=${told#* }
}

# Puts hands in the place of the standard input in whose names a sign that is nowhere else
# (`line_end`) stands for each line end, since a name with one would look like the end of a row. Most
# hands have none, and logs have none; where hands do not read, the program says so.
plain_names() {
    from=''
    for word in "$@"; do
        case $from:$word in
        --from:* | *:--from=*) from=${word#--from=} && break ;;
        *) from=$word ;;
        esac
    done
    case $from in phh | ohh | ohh-to) ;; *) return ;; esac
    { [ ! -d /dev/stdin ] && : <&0; } 2>/dev/null && open_unnamed && hands_are=$spare || return
    head -c 16777217 >"/dev/fd/$hands_are" 2>/dev/null || { echo 'read fault' >&2 && exit 5; }
    eval "exec <'/dev/fd/$hands_are' $hands_are<&-"
    LC_ALL=C grep -qE "\\\\|\"{3}|'{3}" /dev/stdin && open_unnamed && written_are=$spare || return
    if "$1" convert --from "$from" --to "$from" </dev/stdin >"/dev/fd/$written_are" 2>/dev/null &&
        LC_ALL=C grep -qE "(\"{3}|'{3})\$|\\\\n" "/dev/fd/$written_are"; then
        put_plain "/dev/fd/$written_are" ||
            echo 'handref: names that have line ends are shown with them' >&2
    fi
    eval "exec $written_are<&-"
}

# Writes a sign in place of each line end of a text: of PHH by the marks around it, of OHH by `\n`.
# shellcheck disable=SC2016 # these are words of awk
without_line_ends='
    function closing(text, pattern, from) {
        pattern = mark == "\"\"\"" ? "\\\\.|\"\"\"+" : "\047\047\047+"
        for (from = 1; match(substr(text, from), pattern); from += RSTART + 1)
            if (substr(text, from + RSTART - 1, 1) != "\\") return from + RSTART + RLENGTH - 4
        return 0
    }
    function inside(text) {
        if (mark != "\"\"\"") gsub(/["\\]/, "\\\\&", text)
        return text
    }
    is_phh == "" {
        for (done = ""; at = index($0, "\\"); $0 = substr($0, at + 2)) {
            two = substr($0, at, 2)
            done = done substr($0, 1, at - 1) (two == "\\n" ? sign : two)
        }
        print done $0
        next
    }
    {
        for (done = ""; mark != "" && at = closing($0); $0 = substr($0, at + 3)) {
            done = done inside(substr($0, 1, at - 1)) "\"\"\""
            mark = ""
        }
        if (mark != "") {
            printf "%s", done inside($0) sign
        } else if (match($0, /(\[|= |, )("""|\047\047\047)$/)) {
            mark = substr($0, length($0) - 2)
            printf "%s", done substr($0, 1, length($0) - 3) "\"\"\""
        } else {
            print done $0
        }
    }'

# Puts hands, as `convert` writes them, in the place of the standard input, without line ends in
# their texts. Fails where they have each sign that could stand for one, or get too long.
put_plain() {
    for sign in 31 30 29 28 27 26 25 24 23 22 21 20 19 18 17 16 15 14 11 7 6 5 4 3 2 1; do
        LC_ALL=C grep -qiF "$(printf '\\u%04x' "$sign")" "$1" || break
        [ "$sign" -gt 1 ] || return
    done
    open_unnamed || return
    LC_ALL=C awk -v is_phh="${from#ohh*}" -v sign="$(printf '\\\\u%04X' "$sign")" "$without_line_ends" \
        <"$1" >"/dev/fd/$spare"
    [ "$(wc -c <"/dev/fd/$spare")" -le 16777216 ] && eval "exec <'/dev/fd/$spare'" && line_end=$sign
    eval "exec $spare<&-"
    [ -n "$line_end" ]
}

# Opens a file that has no name any more, so nothing is left of it however the call ends, on a
# descriptor that was not open (`spare`).
open_unnamed() {
    find_spare
    unnamed=$(mktemp 2>/dev/null) && eval "exec $spare<>\"\$unnamed\"" && rm -f "$unnamed"
}

# Runs a program, keeps its standard error in `told` and its status in `ended`. The program does not
# get the descriptors that are open here alone (`shut`).
listen() {
    find_spare
    eval "{
        told=\$(exec \"\$@\" 2>&1 >&$spare $spare>&- $shut) && ended=0 || ended=\$?
    } $spare>&1"
}

# Finds a descriptor that is not open. Those of the caller are kept: a word may name one, as
# /dev/fd/3 does.
find_spare() {
    spare=3
    while [ "$spare" -lt 9 ] && [ -e "/dev/fd/$spare" ]; do spare=$((spare + 1)); done
}

# Whether a line of a tool says that there is no room for what it writes.
is_no_room() {
    case $1 in *'No space left'* | *'uota exceeded'* | *'File too large'*) ;; *) return 1 ;; esac
}

# Shows control characters as `\x1b`, but for tabs and line ends, and the sign that stands for one.
shown() {
    LC_ALL=C sed "$(awk -v line_end="${line_end:-0}" 'BEGIN {
        if (line_end) printf "s/\\x%02x/\\\\n/g\n", line_end
        for (i = 0; i < 32; i++) if (i != 9 && i != 10) printf "s/\\x%02x/\\\\x%02x/g\n", i, i
        print "s/\\x7f/\\\\x7f/g"
        for (i = 128; i < 160; i++) printf "s/\\xc2\\x%02x/\\\\x%02x/g\n", i, i
    }')"
}

# Whether nobody reads the pipe of standard output, after a write to it failed. A pipe that does
# not wait may only be full, so nothing is known about it. The fourth octal digit of its flags
# shows that kind.
has_no_reader() {
    while read -r name value; do
        case $name:$value in
        flags:*[4567]???) return 1 ;;
        flags:*) return 0 ;;
        esac
    done 2>/dev/null </proc/self/fdinfo/1
    return 1
}

# Ends by the signal of a status above 128, and takes the temporary folder of ./handref away before.
# Where that signal is ignored, it goes on.
die_of() {
    [ -z "$work" ] || leave
    trap - HUP INT TERM PIPE
    kill -s "$(kill -l "$1")" "$$"
}

# Prints by a command, and ends as the program does where its output cannot be written.
print_by() {
    "$@" 2>/dev/null && return
    ended=$?
    [ "$ended" -ne 141 ] || die_of 141
    echo 'write fault' >&2
    exit 6
}

# Runs a module of the Python package in a folder. The folder of the call is not searched for
# modules, since a stranger's files may lie there.
start='import sys
sys.path[0] = sys.argv.pop(1)
import runpy
runpy.run_module(sys.argv.pop(1), alter_sys=True, run_name="__main__")'

# Runs the commands in Python with a program.
run_python() {
    command -v python3 >/dev/null || {
        echo "handref: $2 runs on Python, and python3 is not on the path" >&2
        exit 70
    }
    HANDREF_PROGRAM=${HANDREF_PROGRAM-$1} PYTHONDONTWRITEBYTECODE=1
    export HANDREF_PROGRAM PYTHONDONTWRITEBYTECODE
    shift
    exec python3 -c "$start" "$package" handref "$@"
}
