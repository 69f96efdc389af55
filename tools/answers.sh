# What every tool answers; they source it before anything else. $root is the repository, $tool the tool's name.
root=$(cd "$(dirname "$0")/.." && pwd)
tool=$(basename "$0")

# --help is answered here, by the words at the tool's head and what all have in common.
if [ "${1:-}" = --help ]; then
    sed -n '2,/^[^#]/s/^# \{0,1\}//p' "$0"
    echo 'It ends with 0; with 1 where the input is at fault, and says where; with 2 where the arguments are, and writes nothing then.'
    exit
fi

# wrong WORDS: what is wrong with the arguments.
wrong() {
    echo "$tool: $1; tools/$tool --help says more" >&2
    exit 2
}
