# Functions for scripts that have crates proved or built in a copy of them, so that nothing in the checkout changes.
# To be sourced at the top of the checkout.

# Has rt ci run one check a processor, as far as there are 5 GB for each. By itself it reckons two to three times the
# memory that these crates take, and so leaves processors idle (docs/GATE.md).
use_processors() {
    local gigabytes jobs
    gigabytes=$(awk '/^MemAvailable/ { print int($2 / 1048576) }' /proc/meminfo)
    jobs=$((gigabytes / 5 < $(nproc) ? gigabytes / 5 : $(nproc)))
    if [ "$jobs" -gt 1 ]; then
        export RT_JOBS=${RT_JOBS:-$jobs}
    fi
}

# with_crates_below NAME..: those of the names that are crates of this repository, each after those that it stands on.
with_crates_below() {
    local name
    for name in "$@"; do
        if grep -qE "^$name[ :]" crates.txt; then
            with_crates_below $(sed -nE "s/^$name( [^:]*)?:(.*)/\2/p" crates.txt)
            echo "$name"
        fi
    done | awk '!seen[$0]++'
}

# copy_crates PLACE CRATE..: makes a repository of these crates in an empty folder, without their must-fail edits.
copy_crates() {
    local place=$1 crate
    shift
    cp HANDLES "$place" || return 1
    for crate in "$@"; do
        grep -E "^$crate[ :]" crates.txt >>"$place/crates.txt" || return 1
    done
    tar -c --exclude=out --exclude=must-fail "${@/#/crates/}" | tar -x -C "$place" || return 1
    git -C "$place" init -q
}

# copy_benchmark PLACE NAME: adds the benchmark in bench/NAME to such a repository, as the crate bench_NAME. The gate
# takes no source outside a crate, so in bench/ each source has `.txt` after its name.
copy_benchmark() {
    local crate=$1/crates/bench_$2 part file
    mkdir "$crate" || return 1
    for part in src specs proofs; do
        [ ! -d "bench/$2/$part" ] || cp -r "bench/$2/$part" "$crate" || return 1
    done
    find "$crate" -name '*.txt' | while read -r file; do mv "$file" "${file%.txt}" || return 1; done
    echo "bench_$2: $(cat "bench/$2/libraries")" >>"$1/crates.txt"
}

# prove PLACE: proves the crates of such a repository, builds its programs and tests, and runs them. What rt ci has
# passed on this machine is not proved again, and crates that don't stand on one another are proved side by side.
prove() {
    (use_processors && cd "$1" && rt ci)
}
