# For the commands of this folder: builds a package of the workspace into $made. bindings/sys finds or makes the archive.
root=$(cd "$(dirname "${BASH_SOURCE[0]}")/.." && pwd)
made=$root/target/cargo/release

# Builds package $1; ends with 0, the reason and $2 where there is no cargo, and with 1 where it does not build.
build() {
    if ! command -v cargo >/dev/null; then
        echo "no cargo here: $2"
        exit 0
    fi
    if [ -n "${DOKPHALUN_ARCHIVE:-}" ]; then
        DOKPHALUN_ARCHIVE=$(realpath -m "$DOKPHALUN_ARCHIVE")
        export DOKPHALUN_ARCHIVE
    fi
    (cd "$root" && cargo build --quiet --offline --release --target-dir target/cargo --package "$1") || exit 1
}

# The folder of the crate's source: the one of MIKKTSPACE_SRC, which has to be one, else ../shared/docs/src; nothing where that is not there.
crate_folder() {
    local folder=${MIKKTSPACE_SRC:-$root/../shared/docs/src}
    if [ -f "$folder/src/lib.rs" ]; then
        realpath "$folder"
    elif [ -n "${MIKKTSPACE_SRC:-}" ]; then
        echo "MIKKTSPACE_SRC is $folder, and there is no src/lib.rs in it" >&2
        return 1
    fi
}

# Builds what compares with the crate; ends with 0, the reason and $1 where there is no crate.
build_beside() {
    local crate
    crate=$(crate_folder) || exit 1
    if [ -z "$crate" ]; then
        echo "no crate here, MIKKTSPACE_SRC is not set and ../shared/docs/src is not there: $1"
        exit 0
    fi
    echo "the crate of $crate beside the archive"
    export MIKKTSPACE_SRC=$crate
    build side_by_side "$1"
}

# How many of the oracle's meshes are asked for: MESHES, else 20,000, and with --gate among the words 2,000.
meshes_asked() {
    case " $* " in
    *" --gate "*) echo "${MESHES:-2000}" ;;
    *) echo "${MESHES:-20000}" ;;
    esac
}

# Has the oracle's generator make $1 random meshes of each further kind, at the rules in force, seed 4; their files are in oracle_files until
# the command ends, none where ../shared/oracle is not there.
oracle_files=()
oracle_meshes() {
    local count=$1 kind harness=$root/../shared/oracle/harness/Cargo.toml programs=$root/target/oracle
    shift
    if [ ! -f "$harness" ]; then
        echo "no ../shared/oracle here: its meshes ($*) are left out"
        return
    fi
    cargo build --quiet --offline --release --manifest-path "$harness" --target-dir "$programs" || exit 1
    if [ ${#oracle_files[@]} -eq 0 ]; then
        meshes=$(mktemp -d)
        trap 'rm -rf "$meshes"' EXIT
    fi
    for kind in "$@"; do
        "$programs/release/gen" 4 "$count" "$kind" "$meshes/$kind" --rules "$(cat "$root/tools/rules")"
        oracle_files+=("$meshes/$kind")
    done
}
