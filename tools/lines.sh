# Runs the program, and adds lines of the script's own where what it says is too little. ./vc2 and the installed script read this;
# `program` is the program then, and `synopsis` the text that help prints.
# shellcheck shell=sh disable=SC2154

say() {
    [ "${VC2_QUIET-}" = 1 ] || printf 'vc2: %s\n' "$1" >&2
}

# How the synopsis spells a key.
form_of() {
    tr -s ' []' '\n' <"$synopsis" | grep -m 1 "^$1="
}

reads_raw() {
    case $1 in
    encode | weave | split) ;;
    *) return 1 ;;
    esac
}

# Raw video has no head, and a film in y4m has one. Of a file the script can look; a pipe is read by the program alone.
say_of_film() {
    if reads_raw "$1" && [ -f /dev/stdin ] && head -c 9 /dev/stdin 2>/dev/null | grep -q '^YUV4MPEG2'; then
        say "the input is a film in y4m, and $1 reads raw video: tools/y4m goes between them"
    fi
}

say_of_refusal() {
    if reads_raw "$1" && [ ! -f /dev/stdin ]; then
        say "raw video has no head, and the words have to fit it; of a film in y4m tools/y4m makes that"
    fi
}

# What a refused word is, and what it has to be. The program has read nothing, so it can be asked again.
explain() {
    note=$("$program" "$@" 2>&1 </dev/null >/dev/null)
    note=${note#usage: } command=${1-}
    why=${note%% *} what=${note##* }
    case $why in
    NoCommand) say 'a command comes first: vc2 help prints them' ;;
    UnknownCommand) say "'$command' is no command: vc2 help prints them; files are given by < and >" ;;
    MissingKey) say "$command wants $(form_of "$what")" ;;
    UnknownKey | RepeatedKey | BadValue)
        shift "$what"
        case $why$1 in
        RepeatedKey*) say "word $what is '$1', and its key stands before" ;;
        BadValue*) say "word $what is '$1', and has to be as in $(form_of "${1%%=*}")" ;;
        *=*) say "word $what is '$1', and $command has no such key: vc2 help prints them" ;;
        *) say "word $what is '$1': words are KEY=VALUE, and files are given by < and >, as in vc2 $command < INPUT > OUTPUT" ;;
        esac
        ;;
    esac
}

# Where the script is killed the program ends too, if there is a setpriv that sees to it.
run() {
    say_of_film "${1-}"
    if setpriv --pdeathsig TERM true 2>/dev/null; then
        setpriv --pdeathsig TERM "$program" "$@"
    else
        "$program" "$@"
    fi
    status=$?
    case $status in
    1) say_of_refusal "${1-}" ;;
    2) explain "$@" ;;
    3) say 'a read of standard input failed' ;;
    # whoever reads a pipe may have seen enough
    4) [ -p /dev/stdout ] || [ -S /dev/stdout ] || say 'a write of the output or of the note failed' ;;
    5) say 'there was not enough memory' ;;
    6) say 'the system did not give the words: is one not in UTF-8?' ;;
    esac
    exit "$status"
}
