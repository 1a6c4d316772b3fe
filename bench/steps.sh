# The steps that run and two share, behind those of compare. Their products stand in target/bench of the repository.
bench=$(dirname "$(realpath "${BASH_SOURCE[0]}")")
. "$bench/../compare/steps.sh"
tree=$root/target/bench

# build_bench SAGE_SRC FOLDER NAME: target/bench/NAME, linked to the archive in FOLDER. It is built from copies: cargo writes down which
#   crates it took, and that depends on the machine.
build_bench() {
    rm -rf "$tree/bench" "$tree/compare"
    mkdir -p "$tree"
    cp -rp "$bench" "$compare" "$tree"
    SAGE_SRC=$(realpath "$1") SENDUMAAL_LIB=$2 cargo build --release --offline --quiet \
        --manifest-path "$tree/bench/Cargo.toml" --target-dir "$tree/build" \
        --config "source.crates-io.replace-with='debian'" --config "source.debian.directory='$products/oracle/registry'" \
        >"$tree/$3.log" 2>&1 || die "cargo cannot build the benchmark ($tree/$3.log says why)"
    cp "$tree/build/release/bench" "$tree/$3"
}
