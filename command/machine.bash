# Sourced by ./rooms and command/test, with `fail` defined and the working folder at the root: C programs compiled with the library and
# run. Programs and the library are for x86-64. On another machine x86_64-linux-gnu-gcc compiles them and qemu-x86_64 runs them where both
# are on the PATH; else the Rattle kit's compiler and emulator do. CC and RUN name others: CC compiles for x86-64, RUN runs what it compiled.
# shellcheck shell=bash

machine=$(uname -m)
library=crates/rooms_c/out/librooms_c.a
table=$PWD/command/main.c

# By what C programs are compiled and run: `means` is native, cross or kit; `cc` the compiler, `runner` what stands in front of a program,
# but for the kit's.
if [ "$machine" = x86_64 ]; then
    means=native
    read -ra cc <<<"${CC:-cc}"
    read -ra runner <<<"${RUN:-}"
elif [ -n "${CC:-}${RUN:-}" ] || { command -v x86_64-linux-gnu-gcc && command -v qemu-x86_64; } >/dev/null; then
    means=cross
    read -ra cc <<<"${CC:-x86_64-linux-gnu-gcc -static}"
    read -ra runner <<<"${RUN:-qemu-x86_64}"
else
    means=kit
    cc=(cc) # of this machine, for its headers alone
    runner=()
fi

# Sets `kit` to the kit's part for this machine.
find_kit() {
    command -v rt >/dev/null || fail "the Rattle kit is missing: no rt on the PATH"
    local home
    home=${RATTLE_HOME:-$(dirname "$(dirname "$(readlink -f "$(command -v rt)")")")}
    kit=$home/on/$machine
    [ -d "$kit" ] || fail "the Rattle kit at $home has nothing for this machine, $machine"
}

# Proves and builds a library or a program, crates/NAME/out/FILE, where it is missing or a source is newer.
build() { # FILE MINUTES
    local file=$1 minutes=$2 how=run
    case $file in *.a) how=lib ;; esac
    if [ -e "$file" ] && { [ ! -d crates ] || [ -z "$(find crates crates.txt -name out -prune -o -type f -newer "$file" -print -quit)" ]; }; then
        return
    fi
    command -v rt >/dev/null || fail "the Rattle kit is missing: no rt on the PATH"
    echo "rooms: proving and building $file; from nothing that takes about $minutes minutes on two processors" >&2
    # rt builds a program to run it: here on nothing
    (cd "${file%/out/*}" && rt "$how" </dev/null) >&2 || fail "$file was not built; rt says why above"
    [ -e "$file" ] || fail "$file was not built; rt says why above"
    touch "$file"
}

# Compiles C files with the library to a program. Flags may stand among the files; what begins with -l is not for the kit.
compile() { # PROGRAM FILE..
    local program=$1 word
    shift
    command -v "${cc[0]}" >/dev/null || fail "a C compiler and the headers of a C library are missing: no ${cc[0]} on the PATH"
    build "$library" 4
    if [ $means = kit ]; then
        compile_by_kit "$program" "$@"
        return
    fi
    local files=() libraries=()
    for word in "$@"; do
        case $word in -l*) libraries+=("$word") ;; *) files+=("$word") ;; esac
    done
    "${cc[@]}" -O2 -Iinclude "${files[@]}" "$library" "${libraries[@]}" -o "$program" || fail "$program was not compiled"
}

# The same by the kit's compiler and linker, with this machine's headers.
compile_by_kit() { # PROGRAM FILE..
    local program=$1 word flags=() objects=()
    shift
    find_kit
    for word in "$@"; do
        case $word in -*) flags+=("$word") ;; esac
    done
    for word in "$@"; do
        case $word in -*) continue ;; esac
        objects+=("$program.$(basename "$word").o")
        "$kit/toolchain/bin/clang" --target=x86_64-unknown-linux-gnu -O2 -Iinclude "${flags[@]}" \
            -isystem "$("${cc[@]}" -print-file-name=include)" -isystem "/usr/include/$("${cc[@]}" -print-multiarch)" \
            -c "$word" -o "$program.$(basename "$word").o" || fail "$word was not compiled"
    done
    "$kit/bin/rattle-link" --target x86_64-unknown-linux-gnu --toolchain "$kit/toolchain" -o "$program" "${objects[@]}" \
        "$library" 2>"$program.log" || {
        cat "$program.log" >&2
        fail "$program was not linked"
    }
}

# Runs a compiled C program: as it is, or in the emulator.
run() { # PROGRAM WORD..
    if [ $means = kit ]; then
        run_proved "$@"
    else
        "${runner[@]}" "$@"
    fi
}

# Runs a program that the kit has built: as it is, or with the kit's C library in the kit's emulator.
run_proved() { # PROGRAM WORD..
    if [ "$machine" = x86_64 ]; then
        "$@"
        return
    fi
    find_kit
    "$kit/toolchain/bin/qemu-x86_64" "$kit/toolchain/lib/ld-linux-x86-64.so.2" --library-path "$kit/toolchain/lib" "$@"
}

# Whether a program compiles, links and runs here with these flags.
works_with() { # FOLDER PROGRAM-TEXT FLAG..
    local folder=$1
    printf '%s' "$2" >"$folder/try.c"
    shift 2
    [ $means != kit ] && "${cc[@]}" "$folder/try.c" "$@" -o "$folder/try" 2>/dev/null && run "$folder/try" 2>/dev/null
}

# The flags of the command's pictures: zlib packs them where a program with zlib works; elsewhere they are stored.
zlib_flags() { # a folder to try it in
    ! works_with "$1" '#include <zlib.h>
int main(void) { return zlibVersion() == 0; }
' -lz || echo "-DHAVE_ZLIB -lz"
}

# The flags of the undefined-behaviour sanitizer: with its library, which says what was undefined, or else by a trap.
undefined_flags() { # a folder to try it in
    local set
    for set in '-fsanitize=undefined -fno-sanitize-recover=all' '-fsanitize=undefined -fsanitize-undefined-trap-on-error'; do
        # shellcheck disable=SC2086
        if works_with "$1" 'int main(void) { return 0; }' $set; then
            echo "$set"
            return
        fi
    done
    echo '-fsanitize=undefined -fsanitize-trap=undefined'
}

# The names of the command's subcommands, or their lines for a usage: the rows of the table in command/main.c.
subcommands() {
    sed -nE 's/^    \{"([a-z-]+)", "[^"]*", "[^"]*",$/\1/p' "$table"
}
subcommand_lines() {
    sed -nE 's/^    \{"([a-z-]+)", "([^"]*)", "([^"]*)",$/  .\/rooms \1 \2\n      \3/p' "$table"
}
