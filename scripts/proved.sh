# Which program is the proved one of the sources that are here, decided by content: by the sum of
# the sources and of the program, as a proof (out/built) or the release (release/SOURCES) names
# them. ./handref reads this file if its last result no longer holds, and so does scripts/release.
# What cannot be checked in full counts as changed.

# top and kept are those of the script that reads this, and it reads what is set here.
# shellcheck shell=sh disable=SC2034,SC2154
# shellcheck disable=SC2015 # A && B || C: C is meant where either of the two did not go well
release=$top/release/SOURCES
archive=$top/release/handref.gz
line_end='
'

# The value of a name in a file of lines `name value`.
value_of() {
    [ -f "$1" ] && sed -n "s/^$2 //p" "$1" 2>/dev/null | sed 1q
}

# The SHA-256 sum of a file, or nothing where it cannot be read.
sum_of() {
    [ -f "$1" ] && line=$(sha256sum <"$1") && printf '%s' "${line%% *}"
}

# The sum of the sources, or the reason why there is none.
sum_sources() {
    sources=
    list=$("$top/scripts/sources" 2>&1) || {
        why="the sources cannot be checked (${list%%"$line_end"*})"
        return 1
    }
    sources=$(printf '%s\n' "$list" | sha256sum) && sources=${sources%% *} &&
        [ "${#sources}" -eq 64 ] || {
        why='the sources cannot be checked (sha256sum fails)'
        return 1
    }
}

# Whether a file is the program that a mark names for these sources.
is_marked() {
    [ -n "$sources" ] && [ "$(value_of "$2" sources)" = "$sources" ] && [ -x "$1" ] || return 1
    program_sum=$(sum_of "$1")
    [ -n "$program_sum" ] && [ "$(value_of "$2" program)" = "$program_sum" ]
}

# Whether a file is the program of the release, whatever the sources are.
is_released() {
    [ -x "$1" ] && program_sum=$(sum_of "$1") && [ -n "$program_sum" ] &&
        [ "$(value_of "$release" program)" = "$program_sum" ]
}

# Unpacks the program of the release into a folder, where it is not there already, and runs it once
# without words.
unpack_under() {
    is_released "$1/released" && return
    new=$1/released.$$
    told=$({ trap '' XFSZ && LC_ALL=C gzip -dc <"$archive" >"$new"; } 2>&1) &&
        chmod 755 "$new" && is_released "$new" && runs "$new" &&
        mv -f "$new" "$1/released" && return
    rm -f "$new"
    ! is_no_room "$told" || no_room=$1
    return 1
}

# Keeps a program that lies in a folder for temporary files by a descriptor, and takes the folder
# away at once, so that nothing is left however the call ends. Where that cannot be, the shell stays.
hold() {
    find_spare
    eval "exec $spare<\"\$1\""
    program=$1 stays=yes
    [ -x "/proc/$$/fd/$spare" ] || return 0
    program=/proc/$$/fd/$spare stays=''
    leave
    work=
}

# Whether the program runs on this machine: without words it ends with 2.
runs() {
    "$1" </dev/null >/dev/null 2>&1
    [ "$?" -eq 2 ]
}

# Finds the proved program of these sources: one that was proved and built here, or else that of the
# release. Where out/ cannot be written, the released one is unpacked into a folder that goes away
# with this call.
look() {
    kind='' program=$kept/handref
    can_keep && trap leave EXIT && forget_killed
    if [ -f "$release" ] && [ ! -f "$kept/built" ] && can_keep; then unpack_under "$kept"; fi
    begin_note
    find_proved
    found=$?
    case $found:$program in 0:"$kept/handref" | 0:"$kept/released") note ;; esac
    rm -f "$kept/began.$$" 2>/dev/null
    return "$found"
}

# Takes away what calls that were killed have left.
forget_killed() {
    find "$kept" -maxdepth 1 -type f \( -name 'began.[0-9]*' -o -name 'checked.[0-9]*' -o \
        -name 'released.[0-9]*' \) -mmin +60 -exec rm -f {} + 2>/dev/null
}

find_proved() {
    no_room=
    sum_sources || return 1
    if is_marked "$kept/handref" "$kept/built"; then
        kind=built
    elif [ "$(value_of "$release" sources)" = "$sources" ]; then
        if can_keep && unpack_under "$kept"; then
            program=$kept/released
        elif use_work && unpack_under "$work"; then
            hold "$work/released"
        elif [ -n "$no_room" ]; then
            fail "there is no room for the program of the release in $no_room"
        else
            why='the program of the release does not run here: it takes gzip, Linux on x86-64'
            why="$why and the GNU C library"
            return 1
        fi
        kind=released
    else
        why='these sources have no proof here'
        [ ! -f "$release" ] ||
            why='these sources are not those of the release and have no proof here'
        return 1
    fi
}

# A note of what was found has the time at which the look began: what is written later is seen. Two
# clock ticks go by before anything is read, and where the times of files are in whole seconds, a
# second is taken off.
begin_note() {
    can_keep && : >"$kept/began.$$" && sleep 0.02 || return
    case $(stat -c %y "$kept/began.$$") in
    *.*[1-9]*\ *) ;;
    *) touch -d "@$(($(date +%s) - 2))" "$kept/began.$$" ;;
    esac
} 2>/dev/null

# shellcheck disable=SC2046 # each number is a word
note() {
    : >"$kept/checked.$$" &&
        set -- $(stat -c %i "$kept/checked.$$" "$top/crates" "$program") && [ "$#" -eq 3 ] &&
        printf '%s\n%s\n%s\n' "$kind" "$program_sum" "$*" >"$kept/checked.$$" &&
        touch -r "$kept/began.$$" "$kept/checked.$$" &&
        mv -f "$kept/checked.$$" "$kept/checked" || rm -f "$kept/checked.$$" "$kept/checked"
} 2>/dev/null

# The version of this tree.
version_here() {
    sed -n 's/^## \[\{0,1\}\([0-9][0-9a-z.]*\).*/\1/p' "$top/CHANGELOG.md" | sed 1q
}

# One line that says what ./handref runs.
version_line() {
    case $kind in
    released)
        echo "handref $(value_of "$release" version), proved; released program, sha256 $program_sum"
        ;;
    built) echo "handref $(version_here), proved; own build, sha256 $program_sum" ;;
    *)
        own=$(version_here)
        echo "handref${own:+ $own}; $why"
        ;;
    esac
}

# Says whether the program that was proved here has the bytes of the release, where the release is
# of these sources.
compare_with_release() {
    if [ ! -f "$release" ]; then
        say 'there is no release here to compare it with'
    elif [ "$(value_of "$release" sources)" != "$sources" ]; then
        say "the release $(value_of "$release" version) is of other sources"
    elif [ "$(value_of "$release" program)" = "$program_sum" ]; then
        say "its bytes are those of the release $(value_of "$release" version)"
    else
        fail "its bytes are not those of the release, sha256 $(value_of "$release" program)"
    fi
}

# Ends where the proof of these very sources has failed.
fail_as_before() {
    [ -n "$sources" ] && [ "$(value_of "$kept/failed" sources)" = "$sources" ] || return 0
    fail "the proof of these sources failed: $kept/prove.log tells why \
(./handref --prove tries again)"
}
