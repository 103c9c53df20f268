# What run, soak, store and bench have in common: the arguments, the libraries and the driver.
# Sourced with the script's own arguments.

root=$(cd "$(dirname "${BASH_SOURCE[0]}")/.." && pwd)

if [ $# -lt 1 ] || [ ! -f "$1/xsf/par_cyl.rs" ]; then
    if [ $# -lt 1 ]; then
        echo "$(basename "$0"): the argument SOURCE is missing" >&2
    else
        echo "$(basename "$0"): there is no $1/xsf/par_cyl.rs" >&2
    fi
    echo "SOURCE: the folder that holds xsf/par_cyl.rs of xsf-rust" >&2
    exit 2
fi
GOZHNERIM_SOURCE=$(cd "$1" && pwd)

# The path of a crate's static library: the one given, or the one built.
library() {
    if [ -n "$2" ]; then
        realpath "$2"
    else
        (cd "$root/crates/$1" && rt lib) >&2 || return
        echo "$root/crates/$1/out/lib$1.a"
    fi
}
GOZHNERIM_LIBRARY=$(library gozhnerim "${GOZHNERIM_LIBRARY:-}")
GOZHNERIM_KERNELS=$(library compare_exports "${GOZHNERIM_KERNELS:-}")

export GOZHNERIM_SOURCE GOZHNERIM_LIBRARY GOZHNERIM_KERNELS
export CARGO_TARGET_DIR=$root/target/compare

# Builds the driver and runs it with the arguments given.
driver() {
    cargo run --release --offline --locked --quiet \
        --manifest-path "$root/compare/Cargo.toml" --package driver -- "$@"
}
