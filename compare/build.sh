# shellcheck shell=bash
# compare/run and bench/run source this file. UPSTREAM names the sources of lexical-util 1.0.7: its folder, or a folder
# with its files as src--src--NAME.rs.txt. WORK names a folder to build in and keep. By default, it is temporary.
# PROFILE=default builds with cargo's own release profile: 16 units, and no optimisation across crates. PEERS names a folder
# of crates, from which the driver takes lexical-core.
: "${UPSTREAM:?needs the folder of the sources of lexical-util 1.0.7, such as those that cargo vendor fetches}"
repository=$(cd "$(dirname "${BASH_SOURCE[0]}")/.." && pwd)
if [ -n "${WORK:-}" ]; then
    mkdir -p "$WORK"
    work=$(cd "$WORK" && pwd)
else
    work=$(mktemp -d)
    trap 'rm -rf "$work"' EXIT
fi

# manifest NAME DEPENDENCY=FOLDER.. writes the manifest of a crate to stdout.
manifest() {
    printf '[package]\nname = "%s"\nversion = "0.0.0"\nedition = "2021"\n\n[workspace]\n' "$1"
    [ "${PROFILE:-}" = default ] || printf '\n[profile.release]\nopt-level = 3\nlto = "fat"\ncodegen-units = 1\n'
    printf '\n[dependencies]\n'
    local dependency
    for dependency in "${@:2}"; do
        printf '%s = { path = "%s" }\n' "${dependency%%=*}" "${dependency#*=}"
    done
}

# Prints the date, the processor and the compiler.
machine() {
    echo "$(date -I), $(sed -n 's/^model name.*: //p' /proc/cpuinfo | head -n 1), $(rustc --version | cut -d' ' -f1,2)"
}

# Copies seven modules of lexical-util into the frame, the crate `upstream`.
mkdir -p "$work/upstream/src"
cp "$repository/compare/upstream.rs" "$work/upstream/src/lib.rs"
for module in ascii digit error feature_format format format_builder format_flags; do
    from=$UPSTREAM/src/$module.rs
    [ -f "$from" ] || from=$UPSTREAM/src--src--$module.rs.txt
    cp "$from" "$work/upstream/src/$module.rs"
done
features=(format power-of-two radix parse-integers parse-floats write-integers write-floats)
{
    manifest upstream
    printf '\n[features]\n'
    printf '%s = []\n' "${features[@]}" std compact f16
    printf 'default = ['; printf '"%s", ' "${features[@]}"; printf ']\n'
} > "$work/upstream/Cargo.toml"

# driver TREE FOLDER NAME PROCESSOR: builds the driver in a folder of a tree over the tree's library, as
# $work/NAME. Each tree is copied to the same place, because paths decide the order of functions. No jump crosses a
# 32-byte boundary. Otherwise, times would depend on the addresses of code.
driver() {
    rm -rf "$work/tree"
    mkdir -p "$work/tree" "$work/driver"
    local root=()
    [ -f "$1/Cargo.toml" ] && root=(Cargo.toml)
    (cd "$1" && tar -c --exclude target rust compare bench "${root[@]}") | tar -xm -C "$work/tree"
    "$repository/compare/rows.py" "$work/upstream/src" > "$work/tree/compare/rust/src/rows.rs"
    {
        manifest driver "peltzivar=$work/tree/rust" "upstream=$work/upstream"
        [ -z "${PEERS:-}" ] || printf 'lexical-core = "0.7.6"\n'
        printf '\n[[bin]]\nname = "driver"\npath = "%s/rust/src/main.rs"\n' "$work/tree/$2"
    } > "$work/driver/Cargo.toml"
    local flags="-C target-cpu=$4 -C llvm-args=-x86-branches-within-32B-boundaries --check-cfg=cfg(peers)"
    local source=()
    [ -z "${PEERS:-}" ] || flags+=' --cfg peers' source=(--config 'source.crates-io.replace-with="peers"' --config "source.peers.directory=\"$PEERS\"")
    (cd "$work/driver" && RUSTFLAGS=$flags CARGO_TARGET_DIR=$work/target-$4 cargo "${source[@]}" build --release --offline --quiet)
    cp "$work/target-$4/release/driver" "$work/$3"
}
