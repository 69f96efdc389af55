# What the tests of the C calls share; they source it, from the repository's root.
warned=(-Wall -Wextra -Werror -Wconversion -pedantic -Iinclude)
strict=(-std=c11 "${warned[@]}")

# bounds: each call and the most stack that it may take, by the table of tests/c/stack.c.
bounds() { sed -n 's/^    {"\([a-z0-9_]*\)", \([0-9]*\),.*/\1 \2/p' tests/c/stack.c; }

# works COMPILER [WORDS]: it builds a program, and that runs; LANGUAGE is c if it does not say c++.
works() {
    printf '%s\n' '#include <stdio.h>' 'int main(void) { return 0; }' | "$@" -x "${LANGUAGE:-c}" -o build/trial - && tests/start build/trial
}

# fetch PACKAGE..: from apt-get, if we are root.
fetch() {
    if [ "$(id -u)" != 0 ]; then return 1; fi
    export DEBIAN_FRONTEND=noninteractive
    timeout 200 apt-get install -y "$@" || { timeout 100 apt-get update && timeout 200 apt-get install -y "$@"; }
}

# there PACKAGES COMPILER [WORDS]: a compiler that works, if need be from these packages; build/fetch.txt has what was tried.
there() {
    works "${@:2}" || { fetch $1 && works "${@:2}"; }
} >build/fetch.txt 2>&1

# device LIBRARIES COMPILER [WORDS]: a worked device, whose log regrun replays to the same states.
device() {
    "${@:2}" "${strict[@]}" -O2 -o build/device tests/c/device.c "$1/libfirmware.a"
    tests/start build/device build/device.log >build/device.states
    local program
    program=${REGRUN:-$(tools/program regrun)}
    tests/start "$program" <build/device.log | diff build/device.states -
}

# slots LIBRARIES COMPILER [WORDS]: the two slots of docs/FIRMWARE.md, the blocks of the page that begin with an image and, further in, with a record, with the power cut at every octet;
# and with one slot alone, which has to fail.
slots() {
    awk '/^    static uint8_t image\[/ { print substr($0, 5) }
        /^        static struct tjernfaug_record record;/ { found = 1 }
        found && NF && substr($0, 1, 8) != "        " { exit }
        found { print substr($0, 9) }' docs/FIRMWARE.md >build/slots.h
    "${@:2}" "${strict[@]}" -Ibuild -O2 -o build/slots tests/c/slots.c "$1/libfirmware.a"
    tests/start build/slots
    "${@:2}" "${strict[@]}" -Ibuild -O2 -DSAME_SLOT -o build/slots tests/c/slots.c "$1/libfirmware.a"
    if tests/start build/slots >build/slots.txt; then
        echo "slots: all comes back from one slot alone, so that the run shows nothing" >&2
        return 1
    fi
    grep -q ': none came back$' build/slots.txt || { cat build/slots.txt >&2; return 1; }
    echo "slots: with one slot alone none comes back, as it has to be"
}

# fuzzer: the program that draws what goes through the calls. fuzz SECONDS LIBRARIES COMPILER [WORDS]: runs it.
fuzzer() { rustc --edition 2021 -O -D warnings -o build/fuzz tests/c/fuzz.rs; }
fuzz() {
    "${@:3}" "${strict[@]}" -O1 -g -o build/lend tests/c/lend.c "$2/libfirmware.a"
    build/fuzz "$1" "${SEED:-1}" tests/start build/lend
}

# stack LIBRARIES COMPILER [WORDS]: what each call takes of it, against its bound. The program is bound at the start, or a first memcpy would have the binding on its stack.
stack() {
    "${@:2}" "${strict[@]}" -O2 -Wl,-z,now -o build/stack tests/c/stack.c "$1/libfirmware.a"
    tests/start build/stack
}
