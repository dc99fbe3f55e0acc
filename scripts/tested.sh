# Finds the program that a test looks at. The scripts of tests read this file.

# shellcheck shell=sh disable=SC2034,SC2154 # top and program are those of the script that reads this
# shellcheck disable=SC2015 # A && B || fail: fail is meant where either of the two did not go well
kept=$top/out
# shellcheck source=scripts/proved.sh
. "$top/scripts/proved.sh" || exit 70

# Sets `program` to the one that HANDREF_PROGRAM names, or else to that of the release, whatever the
# sources are. A folder is taken for the second where out/ cannot be written.
find_tested() {
    if [ -n "${HANDREF_PROGRAM-}" ]; then
        program=$(readlink -f -- "$HANDREF_PROGRAM") && [ -f "$program" ] && [ -x "$program" ] && return
        echo "HANDREF_PROGRAM names no program: $HANDREF_PROGRAM" >&2
        exit 2
    fi
    program=$kept/released
    can_keep && unpack_under "$kept" && return
    program=$1/released
    unpack_under "$1" && return
    echo 'the program of the release does not run here: it takes gzip, Linux on x86-64 and the GNU C library' >&2
    exit 70
}

# Whether files can be kept in out/.
can_keep() {
    mkdir -p "$kept" 2>/dev/null && [ -w "$kept" ]
}
