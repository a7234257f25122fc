#!/bin/sh
# Whether the library for C and Rust programs is what its header and its examples say.
# usage: tests/embedding.sh out/libjaywardrobe.a
#
# Compares headers, manual page and bindings with the sources, and these with the library's exports.
# Builds and runs the examples, and compares their output with what is stored, and the samples of
# pages with them. Tries bad numbers and refused memory, a program that owns a pipe for each file,
# threads that share an engine, seeded walks through the calls beside the plain engine, and
# programs under unixbox. Says in a line what it leaves out, since a tool is missing. Each step is
# tried, also after one that failed. The last line is 'N passed, M failed', and the status is 0
# only if M is 0.
set -eu
if [ $# -ne 1 ]; then
    echo "usage: tests/embedding.sh out/libjaywardrobe.a (make embed builds the library, and calls this)" >&2
    exit 2
fi
if [ ! -f "$1" ]; then
    echo "tests/embedding.sh: $1 is not built: run make embed, or make try-lib for out/unproved/libjaywardrobe.a" >&2
    exit 2
fi
library=$(cd "$(dirname "$1")" && pwd)/$(basename "$1")
cd "$(dirname "$0")/.."
room=$(mktemp -d)
trap 'rm -rf "$room"' EXIT
cc=${CC:-cc}
cxx=${CXX:-c++}
checks="-std=c11 -O1 -g -Wall -Wextra -Werror -pedantic -Iinclude"
sanitizers="-fsanitize=address,undefined -fno-sanitize-recover=all"
programs="examples/c/first.c examples/c/script.c examples/c/sandbox.c examples/c/owned.c
    tests/hostile.c tests/no_memory.c tests/pipes.c"
passed=0
failed=0

# Does a step, and says under this name whether it passed. What it prints is shown where it failed.
tries() {
    step=$1
    shift
    set +e
    (set -e; "$@") > "$room/said" 2>&1
    status=$?
    set -e
    if [ $status -eq 0 ]; then
        passed=$((passed + 1))
        echo "embedding: $step passed"
    else
        failed=$((failed + 1))
        cat "$room/said" >&2
        echo "embedding: $step failed" >&2
    fi
}

# Whether all these programs are there; else says what is left out.
can() {
    left_out=$1
    shift
    for it; do
        if ! command -v "$it" > /dev/null 2>&1; then
            echo "embedding: no $it, so $left_out"
            return 1
        fi
    done
}

# Whether programs that are compiled with these words run; else says what is left out.
can_build() {
    left_out=$1
    shift
    echo 'int main(void) { return 0; }' > "$room/empty.c"
    if ! $cc "$@" "$room/empty.c" -o "$room/empty" 2> "$room/why" || ! "$room/empty"; then
        echo "embedding: no $left_out"
        return 1
    fi
}

# Builds a C program, with these words more, and runs it; its output is to be what is stored.
holds() {
    source=$1
    shift
    name=$(basename "$source" .c)
    if [ "$name" = no_memory ]; then
        set -- "$@" -Wl,--wrap=malloc,--wrap=realloc
    fi
    $cc $checks "$source" "$library" -o "$room/$name" "$@"
    "$room/$name" > "$room/$name.out"
    if [ -f "examples/$name.out" ]; then
        diff "examples/$name.out" "$room/$name.out"
    fi
}

# The compiler is to warn of this statement, by this option.
warns() {
    printf "#include <jaywardrobe.h>\nvoid f(jw_engine *engine);\nvoid f(jw_engine *engine) { %s }\n" \
        "$1" > "$room/warned.c"
    $cc $checks -Wno-error -c "$room/warned.c" -o "$room/warned.o" 2> "$room/why"
    if ! grep -q "\[-W$2\]" "$room/why"; then
        echo "no warning of $1"
        exit 1
    fi
}

reads_as_cxx() {
    echo '#include <jaywardrobe_shared.h>' > "$room/header.cc"
    $cxx -std=c++11 -Wall -Wextra -Werror -pedantic -Iinclude -fsyntax-only "$room/header.cc"
}

walks() {
    $cc -shared -o "$room/libjaywardrobe.so" -Wl,--whole-archive "$library" -Wl,--no-whole-archive
    python3 tests/walks_from_c.py "$room/libjaywardrobe.so"
}

# Runs a command of cargo on the crates for Rust, with these words more.
in_rust() {
    command=$1
    shift
    cargo "$command" --quiet --offline --locked --manifest-path rust/Cargo.toml "$@"
}

# Builds a Rust program and runs it; its output is to be what is stored there.
holds_in_rust() {
    in_rust run --example "$1" > "$room/rust.out"
    diff "$2" "$room/rust.out"
}

# Builds the crates for Rust with the library that pkg-config has, and against a folder without one.
finds_the_library() {
    sed "s|^libdir=.*|libdir=$JAYWARDROBE_LIB_DIR|" jaywardrobe.pc.in > "$room/jaywardrobe.pc"
    (
        unset JAYWARDROBE_LIB_DIR
        export PKG_CONFIG_PATH="$room"
        in_rust build
    )
    if (export JAYWARDROBE_LIB_DIR=/dev; in_rust build) > "$room/rust.out" 2>&1; then
        echo "the Rust crates were built without a library"
        exit 1
    fi
    grep -q "JAYWARDROBE_LIB_DIR names /dev: no libjaywardrobe.a in it" "$room/rust.out"
}

# The samples of a page in this language.
sample() {
    sed -n "/^\`\`\`$2\$/,/^\`\`\`\$/p" "$1" | sed '/^```/d'
}

# Compares the sample of a page, in this language, with a program: it is the whole of it.
is_sample() {
    sample "$1" "$2" | diff - "$3"
}

# Compares the sample of a page, in this language, with a program: it has the lines, in this order.
shows() {
    sample "$1" "$2" | sed 's/^ *//; /^$/d' > "$room/sample"
    sed 's/^ *//' "$3" > "$room/lines"
    awk -v page="$1" 'NR == FNR { line[++count] = $0; next }
        $0 == line[found + 1] { found++ }
        END { if (found < count) { print page ": no line of the program: " line[found + 1]; exit 1 } }
        ' "$room/sample" "$room/lines"
}

tries_in_c() {
    for it in $programs; do
        tries "$it" holds "$it"
    done
    tries "tests/threads.c" holds tests/threads.c -pthread
    tries "the warning of a null handle" warns '(void)engine; (void)jw_next_pid(NULL);' nonnull
    tries "the warning of an ignored answer" warns 'jw_open(engine, 1);' unused-result
    if can_build "address sanitizer, so nothing was run under one" $sanitizers; then
        for it in $programs; do
            tries "$it under the sanitizers" holds "$it" $sanitizers
        done
    fi
    if can_build "thread sanitizer, so no threads were run under one" -fsanitize=thread; then
        tries "tests/threads.c under the thread sanitizer" holds tests/threads.c -fsanitize=thread -pthread
    fi
}

# Runs programs under unixbox, and counts the lines of those that passed.
tries_unixbox() {
    tests/unixbox.sh "$library" > "$room/unixbox" || failed=$((failed + 1))
    cat "$room/unixbox"
    passed=$((passed + $(grep -c ' passed' "$room/unixbox" || true)))
}

tries_in_rust() {
    JAYWARDROBE_LIB_DIR=$(dirname "$library")
    export JAYWARDROBE_LIB_DIR CARGO_TARGET_DIR="$room/cargo" RUSTDOCFLAGS="-D warnings"
    tries "the Rust program sandbox" holds_in_rust sandbox examples/sandbox.out
    tries "the Rust program owned" holds_in_rust owned examples/owned.out
    tries "the tests of the Rust crates" in_rust test
    tries "the documentation of the Rust crates" in_rust doc --no-deps
    if cargo clippy --version > /dev/null 2>&1; then
        tries "the lints of the Rust crates" in_rust clippy --all-targets -- -D warnings
    else
        echo "embedding: no clippy, so the Rust crates were not linted"
    fi
    if can "the Rust crates were not built with it" pkg-config; then
        tries "the search of the Rust crates for the library" finds_the_library
    fi
}

tries "the sample of README.md" shows README.md rust rust/jaywardrobe/examples/owned.rs
tries "the sample of docs/EMBEDDING.md" is_sample docs/EMBEDDING.md c examples/c/first.c
if can "the header was not compared with the library" python3 nm; then
    tries "the headers" tools/bindings --check --archive "$library"
fi
if can "the manual pages were not read" mandoc; then
    tries "the form of the manual pages" mandoc -T lint -W warning docs/man/*.[13]
fi
if can "the C programs were not built" "$cc"; then
    tries_in_c
fi
if can "the headers were not read as C++" "$cxx"; then
    tries "the headers as C++" reads_as_cxx
fi
if can "no walk was played through C" "$cc" python3; then
    tries "the walks through C" walks
fi
if can "no program was run under unixbox" "$cc" python3; then
    tries_unixbox
fi
if can "the Rust programs were not built" cargo; then
    tries_in_rust
fi
echo "$passed passed, $failed failed"
[ "$failed" -eq 0 ]
