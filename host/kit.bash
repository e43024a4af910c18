# What the scripts of this folder share: where things are, what rt has built here already, and how the C host is built and run.
# HOST_CC names another C compiler, HOST_RUN what a program that it built is run with.

host=$(cd "$(dirname "${BASH_SOURCE[0]}")" && pwd -P)
root=$(dirname "$host")
out=$root/target/host
archive=$root/crates/crumbtrellis/out/libcrumbtrellis.a
export CARGO_TARGET_DIR=$out/cargo
warnings=(-std=c11 -Wall -Wextra -Wpedantic -Werror)

say() { printf 'host: %s\n' "$*"; }

# Says what is missing and ends.
need() { # COMMAND WHAT-FOR
    command -v "$1" >/dev/null && return
    say "$1 is not here; it is needed for $2" >&2
    exit 2
}

# The kit is found from its command rt. It runs, and builds, on x86-64 Linux alone.
find_kit() {
    need rt "building the library (the Rattle kit)"
    if [ "$(uname -sm)" != "Linux x86_64" ]; then
        say "this is $(uname -sm): the library is built and run on x86-64 Linux" >&2
        exit 2
    fi
    kit=$(dirname "$(dirname "$(readlink -f "$(command -v rt)")")")
    tools=$kit/toolchain
    cc=()
    if [ -n "${HOST_CC:-}" ] || command -v cc >/dev/null; then
        read -ra cc <<<"${HOST_CC:-cc}"
        need "${cc[0]}" "building the C host"
    fi
    read -ra door_run <<<"${HOST_RUN:-}"
    mkdir -p "$out"
}

# ---- crates.txt

# The libraries that the line of the crate NAME lists.
uses_of() { # NAME
    sed -nE "s/#.*//; s/^$1( staticlib)?: *//p" "$root/crates.txt"
}

# The crate NAME and those of the repository that it rests on, in the order of crates.txt, in which each stands behind those it names.
crates_of() { # NAME
    sed -E 's/#.*//; s/^(\w+) staticlib:/\1:/' "$root/crates.txt" | tac | awk -F: -v name="$1" '
        BEGIN { wanted[name] }
        $1 in wanted { all = $1 " " all; count = split($2, names, " "); for (i = 1; i <= count; i++) wanted[names[i]] }
        END { print all }'
}

# ---- what .ci/run proved

# A sum of the files that find is told of, from the top of the checkout.
sum_of() { # WORDS-OF-FIND...
    (cd "$root" && find "$@" -print0 2>/dev/null | sort -z | xargs -0r sha256sum | sha256sum | cut -c1-64)
}

# What rt ci reads of the crates, and the kit that it is of; the programs, and the libraries, that stand in their out/.
sum_of_sources() { echo "$(rt version) $(sum_of crates crates.txt -name out -prune -o -type f)"; }
sum_of_programs() { echo "programs $(sum_of crates -maxdepth 3 -path '*/out/*' -type f -perm -u+x)"; }
sum_of_libraries() { echo "libraries $(sum_of crates -maxdepth 5 -path '*/out/rlib/*' -type f)"; }

# Whether nothing of an earlier check stands here. rt ci puts such libraries back in the place of its own, whatever sources they are of.
is_clean() { [ -z "$(cd "$root" && find crates -maxdepth 2 -name out)" ] && [ ! -e "$root/.git/rt-aside" ]; }

# Notes that rt ci has passed on these sources, and what it left of them.
note_proved() { # SUM-OF-SOURCES yes|no: whether all was clean before
    mkdir -p "$out"
    printf '%s\n' "$1" "$(sum_of_programs)" "$([ "$2" != yes ] || sum_of_libraries)" >"$out/proved"
}

# Whether the last .ci/run passed on the sources as they are now, and the programs or the libraries that rt ci built of them still stand.
is_noted() { # programs|libraries
    [ -f "$out/proved" ] && grep -qxF -- "$(sum_of_sources)" "$out/proved" && grep -qxF -- "$("sum_of_$1")" "$out/proved"
}

# ---- what is built

# As rt lib does it: proves the static library NAME of the root file SOURCE, over the libraries that stand in the out/ of the crates, and writes ARCHIVE.
build_static() { # NAME SOURCE ARCHIVE TOOLCHAIN USES...
    local name=$1 source=$2 archive=$3 toolchain=$4 crate rlibs
    local words=(--extern "std=$kit/rlibs/std.rlib" -L "dependency=$kit/rlibs")
    shift 4
    for crate; do
        rlibs=$kit/rlibs
        [ ! -d "$root/crates/$crate" ] || rlibs=$root/crates/$crate/out/rlib
        words+=(--extern "$crate=$rlibs/$crate.rlib")
    done
    for crate in $(for crate; do crates_of "$crate"; done | tr ' ' '\n' | sort -u); do
        words+=(-L "dependency=$root/crates/$crate/out/rlib")
    done
    "$kit/bin/rattle" build --crate-name "$name" "$source" "${words[@]}" --antt-project "$kit/rattle/logic/antt-project.json" \
        --logic-built "$kit/logic_built" --jobs 2 --links "$name=" --crate-type staticlib --toolchain "$toolchain" -o "$archive"
}

# Proves the library NAME and those that it rests on, where they have changed.
build_library() { # NAME
    is_noted libraries || (cd "$root/crates/$1" && rt lib)
}

# The same of the C door, and writes the archive. rt ci proves it and writes none.
build_archive() {
    build_library crumbtrellis || return
    # over what rt ci left rt lib would prove the libraries below once more
    if is_noted libraries && [ ! "$archive" -nt "$out/proved" ]; then
        (cd "$root/crates/crumbtrellis" && build_static crumbtrellis src/lib.rt "$archive" "$tools" $(uses_of crumbtrellis))
    fi
}

# Proves the program NAME where it or what it rests on has changed, builds it as crates/NAME/out/NAME, and runs it on its own input.
build_program() { # NAME
    is_noted programs || (cd "$root/crates/$1" && rt run <stdin | cmp - stdout)
}

# Builds the C program SOURCE, with an archive, as PROGRAM.
build_c() { # PROGRAM SOURCE ARCHIVE [FLAGS...]
    local program=$1 source=$2 archive=$3 lib=$tools/lib
    shift 3
    if [ ${#cc[@]} -ne 0 ]; then
        "${cc[@]}" "${warnings[@]}" "$@" -I "$root/include" "$source" "$archive" -o "$program"
        return
    fi
    # The kit's compiler comes without headers, and its linker has to be told every file.
    "$tools/bin/clang" --target=x86_64-unknown-linux-gnu -ffreestanding -nostdinc -isystem "$host/freestanding" -fPIE \
        "${warnings[@]}" "$@" -I "$root/include" -c "$source" -o "$program.o" &&
        "$tools/bin/ld.lld" -pie --dynamic-linker /lib64/ld-linux-x86-64.so.2 -o "$program" \
            "$lib/Scrt1.o" "$lib/crti.o" "$lib/crtbeginS.o" "$program.o" "$archive" \
            "$lib/libc.so.6" "$lib/libc_nonshared.a" "$lib/libgcc.a" "$lib/crtendS.o" "$lib/crtn.o"
}

build_reader() {
    cargo build --release --offline --quiet --manifest-path "$host/reader/Cargo.toml"
}
