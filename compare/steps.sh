# The steps that run, planted and bench/run share. Their products stand in target/compare of the repository.
compare=$(dirname "$(realpath "${BASH_SOURCE[0]}")")
root=$(dirname "$compare")
products=$root/target/compare

die() { echo "$(basename "$(dirname "$(realpath "$0")")")/$(basename "$0"): $*" >&2; exit 1; }

# need COMMAND WHY
need() { command -v "$1" >/dev/null || die "$1 is missing: $2"; }

# check_tools: before anything is built. SENDUMAAL_LIB names a folder with an archive that is built already.
check_tools() {
    need cargo "it builds the comparison and the Rust"
    need cc "it links them"
    [ -z "${SENDUMAAL_LIB:-}" ] || return 0
    local machine
    machine=$(uname -m)
    [ "$machine" = x86_64 ] ||
        die "tools/archive writes for x86-64: SENDUMAAL_LIB has to name a folder with libsendumaal.a for $machine"
    need rt "it proves the library and writes its archive"
}

# build_archive: sets archive to the folder of libsendumaal.a
build_archive() {
    if [ -z "${SENDUMAAL_LIB:-}" ]; then
        "$root/tools/archive" >"$products/staticlib.log" 2>&1 ||
            die "tools/archive fails ($products/staticlib.log says why)"
    fi
    archive=$(realpath "${SENDUMAAL_LIB:-$root/target/staticlib}")
    [ -f "$archive/libsendumaal.a" ] || die "$archive holds no libsendumaal.a"
}

# build_oracle SAGE_SRC: the original Rust as two programs, their paths in ORACLE and ORACLE_ALT
build_oracle() {
    "$compare/oracle/setup" "$1" "$products/oracle" || exit 1
    export ORACLE=$products/oracle/oracle ORACLE_ALT=$products/oracle/oracle-alt
}

# build_compare FOLDER NAME: target/compare/NAME, linked to the archive in FOLDER
build_compare() {
    SENDUMAAL_LIB=$1 cargo build --release --offline --locked --quiet --manifest-path "$compare/Cargo.toml" \
        --target-dir "$products/build" >"$products/$2.log" 2>&1 ||
        die "cargo cannot build the comparison ($products/$2.log says why)"
    cp "$products/build/release/compare" "$products/$2"
}
