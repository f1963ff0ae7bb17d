# Shared by the commands compare, bench, worked-cook and host/examples/run, and by the gate.

# Ends with a message if a program is missing.
need() {
    if ! command -v "$1" >/dev/null 2>&1; then
        echo "$(basename "$0"): $1 is needed and is not on the path" >&2
        exit 1
    fi
}

# Whether a file is missing, or older than a source of the crates.
is_stale() {
    [ ! -f "$2" ] || [ -n "$(find "$1/crates" -name out -prune -o \( -name '*.rt' -o -name '*.antt' \) -newer "$2" -print -quit)" ]
}

# Builds the static library if it is missing or older than its sources, and exports its directory. `rt lib` proves what it builds.
build_library() {
    if [ -z "${COOK_LIB_DIR:-}" ]; then
        COOK_LIB_DIR=$1/crates/host/out
        if is_stale "$1" "$COOK_LIB_DIR/libhost.a"; then
            need rt
            (cd "$1/crates/host" && rt lib) >&2
        fi
    fi
    if [ ! -f "$COOK_LIB_DIR/libhost.a" ]; then
        echo "$(basename "$0"): $COOK_LIB_DIR/libhost.a is missing" >&2
        exit 1
    fi
    COOK_LIB_DIR=$(cd "$COOK_LIB_DIR" && pwd)
    export COOK_LIB_DIR
}

# Builds a program if it is missing or older than its sources. `rt ci` leaves it there; `rt run` proves it, builds it and runs it once, with no input
# and no bank, which the program says.
build_program() {
    if is_stale "$1" "$1/crates/$2/out/$2"; then
        need rt
        echo "$(basename "$0"): building $2; it is proved first, which takes some minutes, and then run once with no bank" >&2
        (cd "$1/crates/$2" && rt run < /dev/null) >&2
    fi
}

# Builds the harness; its programs are then in $harness_programs.
build_harness() {
    need cargo
    need gcc
    build_library "$1"
    export CARGO_TARGET_DIR=${CARGO_TARGET_DIR:-$1/target/cargo}
    cargo build --quiet --release --offline --manifest-path "$1/harness/Cargo.toml" >&2
    harness_programs=$CARGO_TARGET_DIR/release
}
