# To be sourced by the benches: `make_folder CRATES.. -- NAMES..` makes a folder with copies of the crates, without what
# checks kept of them, and beside them a crate `bench`, which names the second list; goes into that crate, whose sources
# are still to come; and removes the folder at the end. No program of the repository is changed. Where BENCH_FOLDER names a
# folder, that one is taken and stays, so that a later run begins with what this one proved.
top=$(cd "$(dirname "$0")/../.." && pwd)

make_folder() {
    if [ -n "${BENCH_FOLDER:-}" ]; then
        folder=$BENCH_FOLDER
    else
        folder=$(mktemp -d)
        trap 'rm -rf "$folder"' EXIT
    fi
    mkdir -p "$folder/crates/bench/src"
    : > "$folder/crates.txt"
    while [ "$1" != -- ]; do
        mkdir -p "$folder/crates/$1"
        for part in src specs proofs; do
            rm -rf "$folder/crates/$1/$part"
            [ ! -d "$top/crates/$1/$part" ] || cp -r "$top/crates/$1/$part" "$folder/crates/$1/"
        done
        grep "^$1:" "$top/crates.txt" >> "$folder/crates.txt"
        shift
    done
    shift
    echo "bench: $*" >> "$folder/crates.txt"
    cd "$folder/crates/bench"
}
