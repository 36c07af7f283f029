# shellcheck shell=bash disable=SC2154 # name and top are the command's
# What the commands for people share: how they tell something, take a sheet, build a program where
# it is missing or older than its sources, and say what is wrong with a refused sheet and how that
# came to be. A command sets name (its own) and top (this folder), sources this file and has a
# function usage.

worked=$top/examples/yards/a.yard
# In the source tree a program is built where it is needed. Installed, the programs stand below the
# commands' folder, which has no sources.
programs=$top/target/bin
[ -e "$top/crates.txt" ] || programs=$top/programs

# Which release this is. The file version is the installed commands'.
version() {
    if [ -e "$top/version" ]; then echo "$name $(<"$top/version")"; return; fi
    echo "$name $( ([ -e "$top/.git" ] && git -C "$top" describe --tags --always --dirty --abbrev=12) 2>/dev/null || echo unknown)," \
        "calls $(awk '/^#define JAVENDRIKY_VERSION / { print $3 }' "$top/include/javendriky.h")," \
        "conformance set $(<"$top/conformance/VERSION")"
}
most_yard=65536 # bytes of a yard sheet that are taken; the move program judges the first 5,200

say() { echo "$name: $*" >&2; }
fail() { say "$@"; exit 2; }

# Sets files: what is named after the options. A file that is named as an option would be is a
# file.
arguments() { # ARGUMENT…
    case ${1-} in
    -h | --help)
        usage
        echo '    --version   prints which release this is, with its versions of calls and conformance set'
        [ ! -e "$top/crates.txt" ] || printf '\nThe first time it proves and builds its program, which takes a few minutes.\n'
        exit ;;
    --version) version; exit ;;
    --) shift ;;
    -?*) [ -e "$1" ] || fail "there is no option $1, nor a file of that name: '$name --help' tells how it is used" ;;
    esac
    files=("$@")
}

# Sets work: a folder that is gone when the command ends.
make_work() {
    work=$(mktemp -d) || fail "no temporary folder can be made: there must be room in ${TMPDIR:-/tmp}"
    trap 'rm -rf "$work"' EXIT
}

# Copies the first bytes of a sheet; of standard input if FILE is -.
take() { # KIND BYTES COPY FILE
    if [ "$4" = - ]; then
        head -c "$2" >"$3" || fail "standard input cannot be read"
        return 0
    fi
    [ -e "$4" ] || fail "there is no file '$4'"
    [ ! -d "$4" ] || fail "'$4' is a folder: name the $1 in it"
    [ -r "$4" ] || fail "the file '$4' may not be read by you: its owner can allow it"
    head -c "$2" -- "$4" >"$3" || fail "the file '$4' cannot be read"
}

# Sets program. The crates are those that it is made from.
build() { # PROGRAM WHAT CRATE…
    local what=$2 crates
    program=$programs/$1
    if [ ! -e "$top/crates.txt" ]; then
        [ -x "$program" ] || fail "$what is missing, the file $program: install Javendriky anew"
        return 0
    fi
    crates=("${@:3}" "$1")
    newer() { (cd "$top" && find crates.txt "${crates[@]/#/crates/}" -path '*/out' -prune -o -newer "$program" -print -quit); }
    if [ -x "$program" ] && [ -z "$(newer)" ]; then return; fi
    command -v rt >/dev/null ||
        fail "the Rattle kit is missing, and $what is still to be built with it: unpack the kit (rattle-kit-13f)" \
            "and put its folder bin/, which holds the command rt, on the PATH"
    say "proving and building $what; the first time takes a few minutes"
    "$top/tools/build" "$1" >/dev/null 2>&1 || fail "$what could not be built: run 'tools/build $1' in $top to see why"
    touch "$program"
}

# Takes one yard sheet: FILE, standard input, or else the worked yard A. More bytes are taken than
# the move program judges, so that people are told of all lines. Leaves the sheet in $work/sheet,
# and what the move program prints for it in $work/out.
plan() { # ARGUMENT…
    arguments "$@"
    [ ${#files[@]} -le 1 ] || fail "one yard sheet at a time: '$name --help' tells how it is used"
    make_work
    : >"$work/sheet"
    # Without FILE standard input may be a terminal, or closed.
    if [ ${#files[@]} -gt 0 ] || { [ ! -t 0 ] && [ -e /dev/fd/0 ]; }; then take 'yard sheet' "$most_yard" "$work/sheet" "${files[0]--}"; fi
    if [ ${#files[@]} -eq 0 ] && [ ! -s "$work/sheet" ]; then
        say "no yard sheet was given: this is the worked yard A, examples/yards/a.yard"
        cp "$worked" "$work/sheet"
    fi
    build moves 'the move program' model refusal lists judge demand serve planner sheet reader
    "$program" <"$work/sheet" >"$work/out" || fail "the move program failed"
}

print() { # FILE KIND
    cat "$1" || { status=$?; [ "$status" -gt 128 ] && exit "$status"; fail "the $2 could not be printed whole"; }
}

# After plan: where the yard sheet is refused, says why and ends.
end_if_refused() {
    local head number place
    { read -r head && read -r number place; } <"$work/out" || :
    if [ "$head" != 'refusal place' ]; then return 0; fi
    say "refused: $(explain "$number" "$place" "$work/sheet")."
    faults yard "$number" "$place" "$work/sheet" "$most_yard" "${files[0]-}"
    exit 1
}

# What is wrong with the yard, and what to mend: the sentence of the C header, by the whole answer
# where the place tells which fault it is, else by the number, with the place put in. The header is
# line 1 and berths count from 0, so a berth's line is its number and 2. With 8 there is nothing to
# mend in the sheet, and no list that its keeper lends. WHAT and OF tell which sheet it is, where
# there are two: 'the yard sheet', ' of my.yard'.
explain() { # NUMBER PLACE SHEET [WHAT OF]
    local text what=${4-the sheet} of=${5-}
    if [ "$1" -eq 8 ]; then
        echo "the yard sheet is all right, but its plan has $2 pushes and this program has room for 32768:" \
            "a C program that lends a longer list gets it, as examples/cabinet.c does"
        return 0
    fi
    text=$(sentence $(($1 * 1000000 + $2)))
    text=${text:-$(sentence "$1")}
    text=${text:-refusal $1, place $2}
    text=${text/the named berth/"berth $2 (line $(($2 + 2))$of)"}
    text=${text/the named line/"line $2$of"}
    text=${text/line 1 is/"line 1$of is"}
    text=${text/the next berth/berth $(($2 - 2))}
    text=${text/#the sheet/"$what"}
    echo "${text/cars and targets differ/cars ($(total 3 "$3")) and targets ($(total 4 "$3")) differ}"
}
sentence() { # CASE
    awk -v front="case $1: return \"" '{ sub(/^ */, "") }
        index($0, front) == 1 && /";$/ { print substr($0, length(front) + 1, length($0) - length(front) - 2) }' \
        "$top/include/javendriky.h" || :
}
total() { awk -v column="$1" 'NR > 1 { sum += $column } END { print sum + 0 }' "$2"; }

# What exactly is wrong with a refused sheet, and which of its further lines are faulty too. KIND is
# yard or moves. FILE is the name that it was handed in by, '-' or '' for standard input. BYTES is
# how much of it was taken at most.
faults() { # KIND NUMBER PLACE SHEET BYTES FILE [WHAT OF]
    local -x LC_ALL=C KIND=$1 NUMBER=$2 LINE=$3 BERTH=$3 WHAT=${7-the sheet} OF=${8-} UNENDED=0 CUT=0 MEND
    local text
    [ "$2" -ne 8 ] || return 0
    case $(head -c 3 "$4" | od -An -tx1) in
    ' ff fe'* | ' fe ff'*) say "$WHAT is text in UTF-16: save it as plain text (ASCII or UTF-8)."; return 0 ;;
    esac
    if [ "$(tr -d '\11\12\15\40-\176\200-\377' <"$4" | wc -c)" -gt 0 ]; then
        say "the file is no plain text: if a spreadsheet or a word processor wrote it, or it is packed," \
            "save the ${1%s} sheet from there as plain text."
        return 0
    fi
    MEND="$(mendsheet_command "$6" "$1") >mended.$1"
    if LC_ALL=C awk '/\r[^\r]/ { found = 1; exit } END { exit !found }' "$4"; then
        say "$WHAT has carriage returns that end no line: save it with line feeds alone (line ends 'LF' or 'Unix'), or run: $MEND"
        return 0
    fi
    case $2 in 1 | 15 | 16 | 17) ;; *) LINE=$(($3 + 2)) ;; esac
    if [ -n "$(tail -c 1 "$4")" ]; then
        if [ "$(wc -c <"$4")" -lt "$5" ]; then UNENDED=1; else CUT=1; fi
    fi
    awk -f "$top/people/mend.awk" -f "$top/people/faults.awk" "$4" >"$work/faults" || fail "the faults of $WHAT could not be told"
    while IFS= read -r text; do
        case $text in *', or run: '*) say "$text" ;; *) say "$text." ;; esac
    done <"$work/faults"
}
# The command that mends a sheet, as it can be typed where this one was called.
mendsheet_command() { # FILE KIND
    local folder file=$1
    folder=$(dirname "$0")
    if [ ! -x "$folder/mendsheet" ]; then folder=$top; fi
    if [ "$file" = - ] || [ -z "$file" ]; then file=your.$2; fi
    printf '%q ' "$folder/mendsheet"
    case $file in -*) printf -- '-- ' ;; esac
    printf '%q' "$file"
}
