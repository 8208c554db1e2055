#!/bin/sh
# Builds and runs one of the programs: run.sh NAME WORDS...
# NAME is test, sample_records, model_vs_rust, vectors, rust_lines, cases_vs_rust, port_vs_model, first_difference, chains_vs_unwinder, decode_vs_model,
# decode_difference, records_vs_model, port_vs_rust, files_vs_rust, bindings_vs_model or bench.
# What needs the Rust source or the port's archive says so where these are not at hand, and is skipped.
set -eu

oracle=$(cd "$(dirname "$0")" && pwd)
name=$1
shift
. "$oracle/source.sh"

need_rust() {
    src=${RUST_SRC:-$oracle/../../shared/docs/src}
    if ! RUST_CFI=$(rust_source "$src" symbolic-cfi/src/lib.rs) || ! RUST_TYPES=$(rust_source "$src" symbolic-common/src/types.rs); then
        echo "skipped: no Rust source"
        exit 0
    fi
    export RUST_CFI RUST_TYPES
}

need_port() {
    LIBDIR=${LIBDIR:-$oracle/../target/staticlib}
    if [ ! -f "$LIBDIR/libstacklines.a" ]; then
        echo "skipped: no libstacklines.a"
        exit 0
    fi
    LIBDIR=$(cd "$LIBDIR" && pwd)
    STACKLINES_LIB=$LIBDIR
    export LIBDIR STACKLINES_LIB
}

case $name in
test | sample_records) package=model ;;
model_vs_rust | vectors | rust_lines | cases_vs_rust) need_rust; package=rust ;;
port_vs_model | first_difference | chains_vs_unwinder | decode_vs_model | decode_difference | records_vs_model) need_port; package=port ;;
port_vs_rust | files_vs_rust) need_rust; need_port; package=port_rust ;;
bench) need_rust; need_port; package=bench ;;
bindings_vs_model) need_port; package=bindings ;;
*)
    echo "run.sh: no program $name" >&2
    exit 2
    ;;
esac

if [ "$name" = test ]; then
    cd "$oracle"
    exec cargo test --offline --release -q -j1 -p model
fi
# Files among the words are looked up where the command is given.
built=$(cd "$oracle" && cargo build --offline --release -q -j1 -p "$package" --bin "$name" && cd "${CARGO_TARGET_DIR:-target}" && pwd)
exec "$built/release/$name" "$@"
