# Installs the proved program under a folder, for ./handref, which reads this file where it is asked
# to: the program with its manual, completions, documents, examples and the Python package. An
# install that fails leaves the folder as it was.

# shellcheck shell=sh disable=SC2034,SC2154 # variables of ./handref are meant
# shellcheck disable=SC2015 # A && B || fail: fail is meant where either of the two did not go well

# The files of an installed program, below its folder. Nothing else is ever taken away.
installed_files() {
    cat <<'END'
bin/handref
libexec/handref/handref
libexec/handref/words.sh
libexec/handref/run.sh
libexec/handref/version
share/man/man1/handref.1
share/bash-completion/completions/handref
share/zsh/site-functions/_handref
share/fish/vendor_completions.d/handref.fish
share/doc/handref/copyright
share/doc/handref/README.md
share/doc/handref/CHANGELOG.md
share/doc/handref/CITATION.cff
END
    cd "$top" || return 1
    find python/README.md python/handref python/examples examples docs -type f \
        ! -path '*[!A-Za-z0-9._/-]*' ! -path '*/.*' | LC_ALL=C sort | while read -r file; do
        case $file in
        *.py | *.css | *.js | *.typed | *.md | examples/* | docs/*.svg | docs/*.png) ;;
        *) continue ;;
        esac
        case $file in
        python/handref/*) echo "libexec/handref/$file" ;;
        docs/*) echo "share/doc/handref/${file#docs/}" ;;
        *) echo "share/doc/handref/$file" ;;
        esac
    done
}

# The folders of these files, those below before those above.
installed_folders() {
    installed_files | sed 's|/[^/]*$||' |
        awk '{ while (1) { print; if (!sub("/[^/]*$", "")) break } }' | sort -u | sort -r
}

# Puts the source of an installed file into a file.
put() {
    case $1 in
    bin/handref) cp -- "$top/scripts/installed" "$2" ;;
    libexec/handref/handref) cp -- "$program" "$2" ;;
    libexec/handref/version) version_line >"$2" ;;
    libexec/handref/python/*) cp -- "$top/${1#libexec/handref/}" "$2" ;;
    libexec/handref/*.sh) cp -- "$top/scripts/${1##*/}" "$2" ;;
    share/man/*) cp -- "$top/docs/handref.1" "$2" ;;
    share/bash-completion/*) cp -- "$top/completions/handref.bash" "$2" ;;
    share/zsh/*) cp -- "$top/completions/_handref" "$2" ;;
    share/fish/*) cp -- "$top/completions/handref.fish" "$2" ;;
    share/doc/handref/copyright) cp -- "$top/LICENSE" "$2" ;;
    share/doc/handref/examples/*) cp -- "$top/${1#share/doc/handref/}" "$2" ;;
    share/doc/handref/python/*.md) sed 's|](\.\./docs/|](../|g' "$top/python/README.md" >"$2" ;;
    share/doc/handref/python/*) cp -- "$top/${1#share/doc/handref/}" "$2" ;;
    share/doc/handref/README.md | */CHANGELOG.md) put_document "$top/${1##*/}" "$2" ;;
    share/doc/handref/CITATION.cff) cp -- "$top/CITATION.cff" "$2" ;;
    share/doc/handref/*.md) put_document "$top/docs/${1#share/doc/handref/}" "$2" ;;
    share/doc/handref/*) cp -- "$top/docs/${1#share/doc/handref/}" "$2" ;;
    *) return 1 ;;
    esac
}

# Puts a document: all documents lie in one folder with examples/ and python/, and what leads
# elsewhere in the sources is no link.
put_document() {
    elsewhere='CONTRIBUTING.md|SECURITY.md|\.editorconfig|crates|scripts|bench|tests|completions|release|handref|HANDLES|python/tests'
    sed -E -e 's|\]\(docs/|](|g' -e 's|\]\(\.\./|](|g' -e 's|\]\(LICENSE\)|](copyright)|g' \
        -e 's|\]\(docs\)|](.)|g' -e "s#\[([^][]*)\]\(($elsewhere)[^)]*\)#\1#g" "$1" >"$2"
}

# Writes all files beside their places, the list first, and then moves them there, so that a program
# that runs is not disturbed. Whatever fails, or interrupts it, is undone.
install_at() {
    find_program || fail "nothing is installed: $why (./handref --prove makes the proved program)"
    read_more proved
    made='' placed='' list='' files='' undo=undo_install
    trap '' XFSZ # a file that may not grow is a fault of writing
    case $1 in */*) ;; *) set -- "./$1" ;; esac
    make_folders "${1%"${1##*[!/]}"}"
    prefix=$(CDPATH='' cd -- "$1" && pwd -P) && [ -r "$prefix" ] && [ -w "$prefix" ] ||
        give_up "$1 cannot be written"
    prefix=${prefix%/}
    exec 8<"$prefix/." && flock -n 8
    [ "$?" -ne 1 ] || give_up "another call writes to $1"
    files=$(installed_files) && [ -n "$files" ] || give_up 'the files of this clone cannot be read'
    list=libexec/handref/files
    for folder in $(installed_folders); do
        make_folders "$prefix/$folder"
        leads_here "$folder" || give_up "$prefix/$folder leads out of $1"
    done
    write_beside
    for file in $list $files; do
        place "$file" || give_up "$prefix/$file cannot be replaced"
    done
    undo=
    forget_old
    say "handref is installed as $prefix/bin/handref"
    case :$PATH: in
    *":$prefix/bin:"*) ;;
    *) say "$prefix/bin is not on the path" ;;
    esac
}

# Writes the list, and then each file beside its place, for everyone to read.
write_beside() {
    forget_old
    write_list >"$prefix/$list.handref-new" 2>/dev/null || give_up "$prefix/$list cannot be written"
    set -- "$prefix/$list.handref-new"
    for file in $files; do
        [ ! -d "$prefix/$file" ] || [ -L "$prefix/$file" ] || give_up "$prefix/$file is a folder"
        put "$file" "$prefix/$file.handref-new" 2>/dev/null ||
            give_up "$prefix/$file cannot be written"
        set -- "$@" "$prefix/$file.handref-new"
    done
    chmod 644 -- "$@" || give_up "$prefix cannot be written"
    set --
    for file in $files; do
        case $file in
        bin/* | libexec/handref/handref) ;;
        *) [ -x "$top/${file#share/doc/handref/}" ] || continue ;;
        esac
        set -- "$@" "$prefix/$file.handref-new"
    done
    chmod 755 -- "$@" || give_up "$prefix cannot be written"
}

# Takes away what was kept of files that were replaced, and what somebody has put where files are
# written: a link there would lead elsewhere.
forget_old() {
    set --
    for file in $list $files; do
        set -- "$@" "$prefix/$file.handref-old" "$prefix/$file.handref-new"
    done
    rm -f -- "$@" 2>/dev/null || give_up "$prefix cannot be written"
}

# Moves a file that was written to its place, and keeps the one that was there until all are placed.
place() {
    if [ -e "$prefix/$1" ] || [ -L "$prefix/$1" ]; then
        ln "$prefix/$1" "$prefix/$1.handref-old" 2>/dev/null ||
            mv -fT "$prefix/$1" "$prefix/$1.handref-old" || return 1
    fi
    placed="$placed $1"
    mv -fT "$prefix/$1.handref-new" "$prefix/$1" 2>/dev/null
}

# Makes a folder and those above it that are not there, all for everyone to read, and keeps in mind
# which.
make_folders() {
    [ ! -d "$1" ] || return 0
    case $1 in */*) [ -z "${1%/*}" ] || make_folders "${1%/*}" ;; esac
    mkdir -m 755 -- "$1" 2>/dev/null || give_up "$1 cannot be made"
    made="$1
$made"
}

# Whether a folder below the prefix is there and lies below it in truth.
leads_here() {
    real=$(CDPATH='' cd -- "$prefix/$1" 2>/dev/null && pwd -P) || return 1
    case $real in "$prefix"/*) ;; *) return 1 ;; esac
}

# The files, and the folders that were made for them, now or by an earlier install.
write_list() {
    for file in $files; do echo "file $file"; done && {
        printf '%s' "$made" | while IFS= read -r folder; do
            folder=$(CDPATH='' cd -- "$folder" && pwd -P) || exit 1
            [ "$folder" != "$prefix" ] || echo 'folder .'
            case $folder in "$prefix"/*) echo "folder ${folder#"$prefix/"}" ;; esac
        done
        [ ! -f "$prefix/$list" ] || sed -n '/^folder /p' "$prefix/$list"
    } | sort -u
}

give_up() {
    undo_install
    fail "$1, so nothing is installed"
}

# Puts back what was replaced, and takes away what was written and the folders that were made.
undo_install() {
    undo=
    for file in $placed; do
        if [ -e "$prefix/$file.handref-old" ] || [ -L "$prefix/$file.handref-old" ]; then
            mv -fT "$prefix/$file.handref-old" "$prefix/$file"
        else
            rm -f "$prefix/$file"
        fi
    done
    for file in $list $files; do rm -f "$prefix/$file.handref-new" 2>/dev/null; done
    printf '%s' "$made" | while IFS= read -r folder; do rmdir -- "$folder" 2>/dev/null; done
}

# Takes away the files of an installed program, and those of their folders that an install has made
# and that are empty then. The list that lies in the folder says only which of the folders were
# made.
uninstall_at() {
    prefix=$(CDPATH='' cd -- "$1" 2>/dev/null && pwd -P) || fail "$1 is no folder"
    prefix=${prefix%/}
    list=libexec/handref/files
    [ -f "$prefix/$list" ] && leads_here libexec/handref ||
        fail "$1 has no handref that was installed from here"
    made=$(sed -n 's/^folder //p' "$prefix/$list")
    for file in $(installed_files) $list; do
        leads_here "${file%/*}" || continue
        rm -f "$prefix/$file" "$prefix/$file.handref-new" "$prefix/$file.handref-old" 2>/dev/null ||
            fail "$prefix/$file cannot be taken away"
        case $file in
        *.py)
            cached=$prefix/${file%/*}/__pycache__
            [ -L "$cached" ] || [ ! -d "$cached" ] || { file=${file##*/} &&
                rm -f "$cached/${file%.py}".*.pyc && rmdir "$cached" 2>/dev/null; }
            ;;
        esac
    done
    for folder in $(installed_folders) .; do
        case "
$made
" in *"
$folder
"*) rmdir -- "$prefix/${folder#.}" 2>/dev/null ;; esac
    done
    if [ -d "$prefix/share/doc/handref" ] || [ -d "$prefix/libexec/handref" ]; then
        say "handref is taken away from $1; files there that are not of this version stay"
    else
        say "handref is taken away from $1"
    fi
}
