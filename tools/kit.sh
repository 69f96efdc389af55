# What stands behind `rt`, for the scripts that source it, from the repository's root: the kit's folder ($kit), its compiler's ($tools), what the last `rt ci` left here, and what the kit
# hands its compiler.
kit=$(dirname "$(dirname "$(readlink -f "$(command -v rt)")")")
tools=$kit/toolchain

# sources: all that is proved and made here, as one number: every file of the crates that a check or a run reads, and of the kit its name, prover and compiler.
sources() {
    {
        cat "$kit/KIT-ID"
        stat -L -c '%n %s %Y' "$kit/bin/rattle" "$tools/bin/clang"
        cat HANDLES 2>/dev/null || true
        find crates.txt crates \( -name must-fail -o -path 'crates/*/out' \) -prune -o -type f -print0 | sort -z | xargs -0 sha256sum
    } | sha256sum
}

# left: what rt ci has left in crates/*/out, each file with its sum: programs, and of a library the file that holds the sums of its others. A library with a stamp is of rt's other commands.
left() {
    local name
    for name in crates/*; do
        name=${name#crates/}
        if [ -x "crates/$name/out/$name" ]; then sha256sum "crates/$name/out/$name"; fi
        if [ ! -e "crates/$name/out/rlib/stamp" ]; then sha256sum "crates/$name/out/rlib/$name.rlib/format" 2>/dev/null || true; fi
    done
}

# passed FILE..: rt ci has passed these very sources, and left these files: .ci/run writes down both, so that no test has to have anything proved again.
passed() {
    local file
    [ "$(sed -n 1p build/passed 2>/dev/null)" = "$(sources)" ] || return 1
    for file; do grep -qxF "$(sha256sum "$file" 2>/dev/null)" build/passed || return 1; done
}

# uses NAME: what a crate names in crates.txt. below NAME: the crates of this tree that it stands on, each once.
uses() { sed 's/#.*//' crates.txt | awk -F : -v name="$1" '{ split($1, head, " ") } head[1] == name { print $2 }'; }
below() {
    sed 's/#.*//' crates.txt | awk -F : -v top="$1" '
        { split($1, head, " "); uses[head[1]] = $2 }
        function walk(name, used, count, i) {
            count = split(uses[name], used, " ")
            for (i = 1; i <= count; i++) if (used[i] in uses && !(used[i] in seen)) { seen[used[i]]; print used[i]; walk(used[i]) }
        }
        END { walk(top) }'
}

# libraries NAME: those below a crate stand in their out/, of these sources: rt ci left them all, or else rt makes them, which takes long where it has kept nothing.
libraries() {
    local files
    mapfile -t files < <(below "$1" | sed 's|.*|crates/&/out/rlib/&.rlib/format|')
    if passed "${files[@]}"; then return; fi
    (cd "crates/$1" && rt check)
}

# shadow DIR ROOM: a shadow of the kit's compiler, by links, but for clang: that one leaves in ROOM what it compiles to an object at last, and its words, and goes on.
shadow() {
    local file
    mkdir -p "$1/bin"
    cat >"$1/bin/clang" <<SCRIPT
#!/bin/sh
case " \$* " in *' -c '*)
    before=
    for word; do
        [ "\$before" != ir ] || cp "\$word" "$2" || exit 1
        before=\$word
    done
    printf '%s\n' "\$@" >"$2/words" ;;
esac
exec "$tools/bin/clang" "\$@"
SCRIPT
    chmod +x "$1/bin/clang"
    for file in "$tools"/* "$tools"/bin/*; do
        [ -e "$1/${file#"$tools"/}" ] || ln -s "$file" "$1/${file#"$tools"/}"
    done
}

# handed ROOM NAME [WORDS]: has rattle prove a crate and build it with these words, so that ROOM has what the compiler compiled, its words, and what came of it (made); what rattle says goes
# to ROOM/said, and is shown if it fails. build/kept has what the next proof of the crate here begins with.
handed() {
    local room=$1 name=$2 used words=(src/lib.rt)
    shift 2
    [ -e "crates/$name/src/lib.rt" ] || words=(src/main.rt)
    libraries "$name" >"$room/said" 2>&1 || { cat "$room/said" >&2; return 1; }
    words+=(--crate-name "$name" --extern "std=$kit/rlibs/std.rlib" -L "dependency=$kit/rlibs")
    for used in $(uses "$name"); do
        if [ -d "crates/$used" ]; then words+=(--extern "$used=../$used/out/rlib/$used.rlib"); else words+=(--extern "$used=$kit/rlibs/$used.rlib"); fi
    done
    for used in $(below "$name"); do words+=(-L "dependency=../$used/out/rlib"); done
    words+=(--antt-project "$kit/rattle/logic/antt-project.json" --logic-built "$kit/logic_built" --incremental "$PWD/build/kept/$name" --jobs 2)
    mkdir -p "build/kept/$name"
    shadow "$room/shadow" "$room"
    (cd "crates/$name" && "$kit/bin/rattle" build "${words[@]}" "$@" --toolchain "$room/shadow" -o "$room/made") >"$room/said" 2>&1 || { cat "$room/said" >&2; return 1; }
    rm -rf "$room/shadow"
    [ -s "$room/words" ] || { echo "rattle build $name: the kit handed its compiler nothing to compile" >&2; return 1; }
}

# named TARGET: the words that name to the compiler a processor that the kit does not build for. Of armv7 it is the least with hard float: not every board has vectors.
named() {
    case $1 in
        x86-64 | aarch64) ;;
        riscv64) echo '--target=riscv64-unknown-linux-gnu' ;;
        armv7) echo '--target=armv7-unknown-linux-gnueabihf -mfpu=vfpv3-d16' ;;
        *) return 1 ;;
    esac
}

# elsewhere FILE: the lines of a module as text in which a pointer stands between other values and not as `{ ptr, i64 }`, which has the same places with 32 bits, or in which `{ i8, [7 x i8], ptr }`
# is more than handed on; @ is a pointer, ~ the latter, A what has no pointer or is `{ ptr, i64 }`.
elsewhere() {
    grep -v '^attributes' "$1" | sed -E -e 's/\bptr\b/@/g' -e 's/\{ i8, \[7 x i8\], @ \}/~/g' -e '/<\{|(alloca|getelementptr|insertvalue) .*~/s/~/{ ~ }/g' \
        -e '/<\{/!s/\{ @, i64 \}/A/g' -e ':again' -e 's/[[{<][^][{}<>@~]*[]}>]/A/' -e 't again' | grep -E '[[{<][^][{}<>]*[@~]|(alloca|getelementptr|getelementptr inbounds) @'
}

# widened ROOM: for a processor of 32 bits, ROOM/module.bc as a text in which each pointer has the room and the place that the module, made for 64 bits, supposes: eight octets of its own, and
# the place eight octets on where it is handed back behind an octet. Where a module has one elsewhere between other values it is refused: nothing says that its place is the same.
widened() {
    local room=$1
    (cd "$room" && "$tools/bin/clang" --target=x86_64-unknown-linux-gnu -S -emit-llvm -x ir module.bc -Xclang -disable-llvm-passes -o module.ll) || return 1
    sed -E -e 's/= alloca ptr, align 8$/= alloca [8 x i8], align 8/' \
        -e 's/(extractvalue \{ i8, ptr \} .*), 1$/\1, 2/' -e 's/\{ i8, ptr \}/{ i8, [7 x i8], ptr }/g' "$room/module.ll" >"$room/module.bc"
    if elsewhere "$room/module.bc"; then
        echo "the module has a pointer that may have another place with 32 bits" >&2
        return 1
    fi
}

# compiled ROOM TARGET [WORDS]: ROOM/module.o, what the compiler was handed by its words, but for those that name the processor where it is for another one. What is compiled names x86-64 too
# then, and its functions do, which the compiler passes over and says so: what it says is in ROOM/said, and is shown if it fails.
compiled() {
    local room=$1 target words other='/^--sysroot=/d'
    target=$(named "$2") || return 1
    [ -z "$target" ] || other='/^--target=/d; /^-march=/d; /^--sysroot=/d'
    mapfile -t words < <(sed "$other" "$room/words")
    if [ "$2" = armv7 ]; then widened "$room" || return 1; fi
    shift 2
    (cd "$room" && "$tools/bin/clang" $target "${words[@]}" -Wno-override-module "$@") 2>"$room/said" || { cat "$room/said" >&2; return 1; }
}
