# What host/bench/run and host/bench/check share: what they need, and the program that measures. To be sourced; $me is
# who speaks. The library is that of `host/library`, built again where it is old, or the one in EMS_LIB_DIR. With
# CI=true anything missing is a failure; elsewhere it is said on standard error, and nothing is measured.

. "$(dirname "${BASH_SOURCE[0]}")/../build.sh"

# What must be there, and the Debian package it comes in.
needs=(
    "${tool_needs[@]}"
    "gcc gcc"
    "objdump binutils"
    "valgrind valgrind"
)

measure() {
    install_missing "${needs[@]}"
    require "${needs[@]}"
    require_library
    EMS_LIB_DIR=$(realpath "${EMS_LIB_DIR:-$checkout/target/staticlib}")
    export EMS_LIB_DIR
    cd "$checkout/host"
    exec cargo run --quiet --release --offline --package bench -- "$@"
}
