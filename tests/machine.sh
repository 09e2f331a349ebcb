# shellcheck shell=bash disable=SC2034
# machine.sh, to be sourced: compiles C programs for x86-64 and runs them, on a machine of either kind.
#
#   need COMMAND PACKAGE     installs a package where its command is missing
#   proved_program NAME [LOG]   proves and builds target/bin/NAME where it is missing or older than a source
#   proved_library           the same for target/staticlib/libsoad.a
#   compile OUT WORD ..      compiles and links C files (and archives, and flags) into the program OUT; with SHOW set, prints each
#                            command on standard error first
#   hosted                   sets headers to the flags that give a C file the C library's headers, where it wants them
#   ${start[@]} OUT WORD ..  runs such a program
#   ${kit_start[@]} OUT ..   runs a program that rt has built
#
# On x86-64 the programs are native. Elsewhere, or with CROSS=1, the Rattle kit gives compiler, linker, loader and C library for
# x86-64, gcc the headers that belong to no C library (stdint.h, stddef.h, ..), and an emulator of the kit runs the program, or
# qemu-user's where the kit has none. The kit itself is for x86-64.

# one at a time: several tests may run side by side
install_package() {
    (
        flock 9
        echo "installing $1" >&2
        apt-get install -y -q "$1" >/dev/null 2>&1 || { apt-get update -q >/dev/null 2>&1 && apt-get install -y -q "$1" >/dev/null; }
    ) 9>"${TMPDIR:-/tmp}/soad-packages.lock" || {
        echo "the package $1 cannot be installed" >&2
        return 1
    }
}

need() { command -v "$1" >/dev/null || install_package "$2"; }

tree=$(cd "$(dirname "${BASH_SOURCE[0]}")/.." && pwd -P)

# fresh FILE: it is there, and no source is newer.
fresh() { [ -f "$1" ] && [ -z "$(find "$tree/crates" "$tree/crates.txt" -type d -name out -prune -o -newer "$1" -type f -print -quit)" ]; }

# made FILE CRATE MADE VERB [LOG]: FILE is fresh, or becomes a copy of what rt makes of the crate as out/MADE once it has proved it: `rt ci` leaves the
# programs there, and else `rt VERB` makes it, over what this tree has proved before. A program is run on its own input, and writes what is stored.
# What rt says on standard error is appended to LOG, where one is given.
made() {
    local file=$1 folder=$tree/crates/$2 own=$tree/crates/$2/out/$3 log=${5:-} room
    fresh "$file" && return
    mkdir -p "${file%/*}" || return
    if ! fresh "$own"; then
        room=$(mktemp -d) || return
        log=${log:-$room/log}
        (cd "$folder" && rt "$4" <"$([ "$4" = run ] && echo stdin || echo /dev/null)") >"$room/out" 2>>"$log" &&
            { [ "$4" != run ] || cmp "$room/out" "$folder/stdout" 2>>"$log"; } || {
            tail -q -n 5 "$room/out" "$log"
            rm -rf "$room"
            return 1
        }
        rm -rf "$room"
    fi
    # in one step: another test may be running the file
    cp "$own" "$file.$$" && mv "$file.$$" "$file"
}

proved_program() { made "$tree/target/bin/$1" "$1" "$1" run "${2:-}"; }

# the crate of the C functions, which crates.txt has as a static library
proved_library() {
    local crate
    crate=$(sed -n 's/^\(soad\w*\) staticlib *:.*/\1/p' "$tree/crates.txt")
    made "$tree/target/staticlib/libsoad.a" "$crate" "lib$crate.a" lib
}

kit_tools() { echo "$(cd "$(dirname "$(rt doc)")" && pwd -P)/toolchain"; }

c_flags=(-std=c11 -O2 -Wall -Wextra -Werror)

# echoed WORD ..: runs a command, and prints it first where SHOW is set.
echoed() {
    [ -z "${SHOW:-}" ] || { printf '+' && printf ' %q' "$@" && echo; } >&2
    "$@"
}

compile_native() {
    local out=$1
    shift
    need cc gcc && echoed cc "${c_flags[@]}" -o "$out" "$@"
}

# Files that are C are compiled, one object each; archives and objects are linked; all else is a flag for the compiler.
compile_cross() {
    local out=$1 tools lib word objects=() flags=() sources=()
    shift
    for word; do
        case $word in
        -*) flags+=("$word") ;;
        *.c) sources+=("$word") ;;
        *) objects+=("$word") ;;
        esac
    done
    need gcc gcc || return
    tools=$(kit_tools) lib=$tools/lib
    flags+=(-fPIE -nostdinc -isystem "$(gcc -print-file-name=include)")
    flags+=(-Wno-builtin-macro-redefined -U__STDC_HOSTED__ -D__STDC_HOSTED__=0) # gcc's stdint.h then asks for no other
    for word in "${sources[@]}"; do
        echoed "$tools/bin/clang" --target=x86_64-unknown-linux-gnu "${c_flags[@]}" "${flags[@]}" -c -o "$out-$(basename "$word").o" "$word" || return
        objects=("$out-$(basename "$word").o" "${objects[@]}")
    done
    echoed "$tools/bin/ld.lld" -m elf_x86_64 -pie -dynamic-linker /lib64/ld-linux-x86-64.so.2 -o "$out" \
        "$lib/Scrt1.o" "$lib/crti.o" "$lib/crtbeginS.o" "${objects[@]}" "$lib/libc.so.6" "$lib/libc_nonshared.a" "$lib/libgcc.a" \
        "$lib/crtendS.o" "$lib/crtn.o"
}

loader() { echo "$(kit_tools)/lib/ld-linux-x86-64.so.2" --library-path "$(kit_tools)/lib"; }

if [ "$(uname -m)" = x86_64 ] && [ -z "${CROSS:-}" ]; then
    start=()
    # shellcheck disable=SC2207
    kit_start=($(loader))
    compile() { compile_native "$@"; }
    hosted() { headers=(); }
else
    emulator=$(kit_tools)/bin/qemu-x86_64
    [ -x "$emulator" ] || { need qemu-x86_64 qemu-user && emulator=qemu-x86_64; }
    # shellcheck disable=SC2207
    start=("$emulator" $(loader))
    kit_start=("${start[@]}")
    compile() { compile_cross "$@"; }
    # the C library's headers for x86-64, out of Debian's package for cross compilers
    hosted() {
        headers=(-isystem/usr/x86_64-linux-gnu/include)
        [ -f /usr/x86_64-linux-gnu/include/stdio.h ] || install_package libc6-dev-amd64-cross
    }
fi
