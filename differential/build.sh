# Sourced by run, files, record, faults, bench and stack: cuts the Rust, makes the static library, builds the driver.
# `source`: the checkout of the Rust. `driver`: the program that is built. `libs`: where the static library is.
# FAULT: a planted fault of cut.py. OUR_LIBS: a folder that has libyonaduvi.a already.

top=$(cd "$(dirname "${BASH_SOURCE[0]}")/.." && pwd)
work=$top/target/differential
driver=$work/target/release/differential
libs=${OUR_LIBS:-$top/crates/yonaduvi/out}

say() { echo "differential: $*" >&2; }
die() { say "$*"; exit 2; }

# The static library, made of the crates above.
library() {
    command -v rt >/dev/null || die "no rt"
    (cd "$top/crates/yonaduvi" && rt lib) >"$work/staticlib.log" 2>&1 || { cat "$work/staticlib.log"; die "rt lib in crates/yonaduvi failed"; }
}

prepare() {
    local source=$1 tool version registry package
    for tool in python3 cargo rustc; do
        command -v "$tool" >/dev/null || die "no $tool"
    done
    version=$(rustc --version | sed 's/^rustc 1\.\([0-9]*\).*/\1/')
    [ "$version" -ge 88 ] || die "the source is written for Rust 1.88 or later; rustc here is 1.$version"

    # num-complex is the distribution's: its package lays sources for cargo into one folder
    registry=/usr/share/cargo/registry
    package=librust-num-complex-dev
    if ! compgen -G "$registry/num-complex-*/Cargo.toml" >/dev/null; then
        say "installing $package"
        apt-get install -y --no-install-recommends $package >/dev/null 2>&1 ||
            { apt-get update >/dev/null 2>&1 && apt-get install -y --no-install-recommends $package >/dev/null 2>&1; } ||
            die "no num-complex in $registry: install $package (as root: apt-get install $package)"
    fi

    mkdir -p "$work/.cargo" "$work/source/src"
    python3 "$top/differential/cut.py" "$source" "$work" ${FAULT:+"$FAULT"} || exit 2
    cat >"$work/.cargo/config.toml" <<CONFIG
[source.crates-io]
replace-with = "debian"
[source.debian]
directory = "$registry"
[build]
target-dir = "$work/target"
CONFIG
    cat >"$work/Cargo.toml" <<'WORKSPACE'
[workspace]
members = ["source", "../../differential/driver"]
resolver = "2"
WORKSPACE
    cat >"$work/source/Cargo.toml" <<'PACKAGE'
[package]
name = "source"
version = "0.0.0"
edition = "2024"
[dependencies]
num-complex = "0.4"
PACKAGE

    [ -n "${OUR_LIBS:-}" ] || library
    [ -f "$libs/libyonaduvi.a" ] || die "no libyonaduvi.a in $libs"
    rm -f "$work/Cargo.lock"
    (cd "$work" && OUR_LIBS=$libs cargo build --release --offline --quiet -j "${JOBS:-1}" -p differential) || die "the driver was not built"
}
