# Which programs stand in the checkout, and of which sources each was made. ./vc2 and the tools that build, install or record read
# this; `here` is the top then.
# shellcheck shell=sh disable=SC2154
proved=$here/crates/vc2/out/vc2
unproved=$here/out/unproved/vc2
# What a program is made from beside crates.txt: code alone, or definitions and proofs too.
code='.*\.rt'
all='.*\.\(rt\|antt\)'

fail() {
    echo "vc2: $1" >&2
    exit "${2-6}"
}

# One sum of the names and texts of the sources.
sum_of() {
    (cd "$here" && find crates.txt crates -name out -prune -o -type f \( -name crates.txt -o -regex "$1" \) -print0 |
        LC_ALL=C sort -z | xargs -0 sha256sum | sha256sum)
}

# What a line of PROVED says: the sum of `sources` or of `code` that passed the gate, and the `kit`.
recorded() {
    sed -n "s/^$1 //p" "$here/PROVED" 2>/dev/null || :
}

# How the code of a sum is built without its proofs with a kit: `full`, at full speed, where PROVED names it and a kit of the same
# logic, since then no operation can fault; else with `stops`.
kind_of() {
    gate=$(recorded kit)
    if [ "${1%% *}" = "$(recorded code)" ] && [ "${2##* }" = "${gate##* }" ]; then
        echo full
    else
        echo stops
    fi
}

# A program has a record beside it: a sum of the sources, one of the program, the kit and, where it was built without the proofs,
# the kind. What `sum`, `own`, `kit` and `kind` are is read from there.
read_record() {
    [ -x "$1" ] && [ -f "$1.record" ] || return 1
    { read -r sum && read -r own && read -r kit && { read -r kind || kind=; }; } <"$1.record"
}

# The record counts as old at first.
write_record() {
    printf '%s\n' "$2" "$(sha256sum <"$1")" "$(rt version || echo 'an unknown kit')" >"$1.record.$$" &&
        touch -d @0 "$1.record.$$" && mv "$1.record.$$" "$1.record"
}

# The names of all sources and their folders, with a program's, in a list beside it: to look at these takes half as long as to
# look for them.
write_list() {
    (cd "$here" && find crates.txt "$1" crates/*/src crates/*/specs crates/*/proofs \( -type d -o -name crates.txt -o -path "$1" \
        -o -regex "$all" \) -print0 2>/dev/null) >"$1.list"
}

# Whether a file or a folder of those that find is given was changed after the mark was. The times tell: of the text, and of the
# change itself, which no copy or unpacking sets back.
is_newer() {
    mark=$1
    shift
    newer=$(cd "$here" && find "$@" \( -newer "$mark" -o -cnewer "$mark" \) -print -quit 2>/dev/null) || return 0
    [ -n "$newer" ]
}

# Whether the sums of the sources and of the program are those of the record that was read. The record then gets the time a
# second before they were counted, since times of files are coarse.
has_sums() {
    now=$(date +%s)
    [ "$sum" = "$(sum_of "$2")" ] && [ "$own" = "$(sha256sum <"$1")" ] || return 1
    [ -z "$kind" ] || [ "$kind" = "$(kind_of "$sum" "$kit")" ] || return 1
    [ "$2" = "$code" ] || write_list "$1" 2>/dev/null || :
    touch -c -d "@$((now - 1))" "$1.record" 2>/dev/null || :
}

# `rt ci` proves all and leaves the program with no record. Its lock has the time at which the run began: where no source is
# newer, the program is of the sources that stand here. The program's own time would not tell of an edit during the run.
take_from_ci() {
    lock=$here/.git/rt-ci.lock
    [ -x "$proved" ] && [ ! -f "$proved.record" ] && [ -f "$lock" ] && [ -z "$(find "$lock" -newer "$proved")" ] || return 1
    write_list "$proved" 2>/dev/null && ! is_newer "$lock" -files0-from "$proved.list" -maxdepth 0 ! -path "$proved" &&
        write_record "$proved" "$(sum_of "$all")" 2>/dev/null && read_record "$proved"
}

# Whether the program stands that was proved from the sources that stand here, and which record it has.
is_proved() {
    if read_record "$proved"; then
        ! is_newer "$proved.record" -files0-from "$proved.list" -maxdepth 0 || has_sums "$proved" "$all"
    else
        take_from_ci
    fi
}

# Whether the one of the same code without its proofs stands, of the kind that PROVED asks for.
is_built() {
    read_record "$unproved" && [ "$kind" ] || return 1
    set -- "$unproved" crates.txt
    if [ -f "$here/PROVED" ]; then
        set -- "$@" PROVED
    elif [ "$kind" = full ]; then
        return 1
    fi
    # shellcheck disable=SC2046
    ! is_newer "$unproved.record" "$@" $(cd "$here" && echo crates/*/src) || has_sums "$unproved" "$code"
}

# The same where the checkout can't be written: the program is among the user's kept files then.
find_unproved() {
    is_built && return
    mkdir -p "${unproved%/*}" 2>/dev/null && [ -w "${unproved%/*}" ] && return 1
    kept=${XDG_CACHE_HOME:-${HOME:-/nonexistent}/.cache}/vc2
    unproved=$kept/$(printf %s "$here" | sha256sum | cut -c 1-16)/vc2
    mkdir -p "${unproved%/*}" 2>/dev/null || fail "neither $here/out nor $kept can be written: set XDG_CACHE_HOME to a folder that can"
    is_built
}

# Has it built where it isn't there.
have_unproved() {
    find_unproved && return
    sum=$(sum_of "$code")
    kind=$(kind_of "$sum" "$(rt version 2>/dev/null)")
    "$here/tools/build_unproved" "$unproved" "$sum" "$kind" </dev/null >/dev/null || exit 6
    # what was changed meanwhile may be in the program, and was in no sum
    [ "$sum" = "$(sum_of "$code")" ] || fail "sources were changed while the program was built: the next call builds it"
}

# What is said of a kind of build.
says_of() {
    if [ "$1" = full ]; then
        echo "not proved here: this code passed the gate with $(recorded kit)"
    else
        echo 'not proved: built with a stop at each operation that may fault'
    fi
}

# What `--version` says of the program that calls run.
state() {
    if is_proved; then
        echo "proved with $kit"
    elif ! find_unproved; then
        echo 'not proved, and not built yet'
    else
        says_of "$kind"
    fi
}
