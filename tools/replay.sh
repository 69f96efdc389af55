# What the tools that replay a log share; they source it before anything else.
. "$(dirname "$0")/answers.sh"

# --limits CARD BAN N1 may stand anywhere among a tool's words, which are here left without it; $limits has the three numbers, or nothing.
limits=
others=()
while [ $# -gt 0 ]; do
    if [ "$1" != --limits ]; then
        others+=("$1")
        shift
        continue
    fi
    [[ "${*:2:3}" =~ ^([1-9]|10)\ ([1-9]|10)\ ([1-9]|10)$ && $# -ge 4 ]] || wrong "behind --limits three numbers are wanted, those of card, ban and N1, each 1 to 10"
    [ -z "$limits" ] || wrong "--limits is wanted once"
    limits=${*:2:3}
    shift 4
done
set -- "${others[@]}"

# there FILE: it can be read.
there() {
    if [ -d "$1" ] || [ ! -r "$1" ]; then wrong "no log or scenario at $1"; fi
}

# built NAME SOURCE..: build/NAME from the first source, if one of them is newer.
built() {
    local name=$root/build/$1
    shift
    mkdir -p "$root/build"
    if [ ! -e "$name" ] || [ -n "$(find "$@" -newer "$name")" ]; then
        rustc --edition 2021 -O -D warnings -o "$name" "$1"
    fi
}

# translator: build/scenario, which goes between logs and their text.
translator() {
    built scenario "$root"/tests/rust/scenario.rs "$root"/docs/src/message.rs
}

# logged FILE: the log, or that of a scenario (FILE.txt), in $work/log, its text in $work/text; $comments is the scenario, if it is one. $limits has the limits told
# or those of the scenario, else 3 3 3, and $replay is the program that replays the log with them.
# A bad log is told; $ended is then 1, and the text is that of the records before the bad one.
logged() {
    local said=
    translator
    built regrun-rust "$root"/docs/src/main.rs "$root"/docs/src
    work=$(mktemp -d)
    trap 'rm -rf "$work"' EXIT
    comments=()
    case $1 in
        *.txt)
            "$root/build/scenario" to-log "$1" "$work/limits" <"$1" >"$work/log"
            said=$(cat "$work/limits")
            comments=("$1")
            ;;
        *) cat "$1" >"$work/log" ;;
    esac
    limits=${limits:-${said:-3 3 3}}
    [ "$limits" = "${said:-$limits}" ] || wrong "$1 says limits $said, which are not $limits"
    replay=("$root/build/regrun-rust" --limits $limits)
    ended=0
    "$root/build/scenario" to-text "$1" <"$work/log" >"$work/text" || ended=$?
}
