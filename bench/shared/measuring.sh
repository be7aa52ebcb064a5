# What scripts of bench/ have in common that build a program beside the gate, measure by bench/rv_bench or look at allocations. They
# source it, with their folder in `bench`.

missing() {
    echo "bench/$(basename "$0"): $1 is missing" >&2
    exit 127
}

# Ends with 127 where one of these tools is missing.
needs() {
    local tool
    for tool in "$@"; do
        command -v "$tool" >/dev/null || missing "$tool"
    done
}

# Makes a folder for the time of the script.
take_folder() {
    folder=$(mktemp -d)
    trap 'rm -rf "$folder"' EXIT
}

# Copies the sources of a crate into a folder of its name below another, and links its library there, where that is proved.
copy_crate() {
    local to=$2/${1##*/} part
    mkdir -p "$to/out"
    for part in src specs proofs stdout; do
        [ ! -e "$1/$part" ] || cp -r "$1/$part" "$to/"
    done
    [ ! -d "$1/out/rlib" ] || cp -al "$1/out/rlib" "$to/out/"
    # The sources of bench/ end in .txt, since the gate takes those of its crates alone.
    find "$to" -name '*.antt.txt' -o -name '*.rt.txt' | while IFS= read -r part; do mv "$part" "${part%.txt}"; done
}

# Takes into a program of bench/ that was laid in a tree what its file `taken` names of crates, in lines `CRATE PATH..`: there the
# names of that crate are its own.
take_files() {
    local name=$1 to=$2/crates/$1 crate paths path
    [ -e "$bench/$name/taken" ] || return 0
    while read -r crate paths; do
        for path in $paths; do
            mkdir -p "$(dirname "$to/$path")" && cp -r "$bench/../crates/$crate/$path" "$to/$path" &&
                find "$to/$path" -type f -exec sed -i "s/\bRattle\.$crate\./Rattle.$name./" {} + || return
        done
    done <"$bench/$name/taken"
}

# Gives a program of bench/ its out/ back, and removes the tree, since the gate takes no sources but those of crates.
lift_tree() {
    [ ! -d "$2/crates/$1/out" ] || [ -d "$bench/$1/out" ] || mv "$2/crates/$1/out" "$bench/$1/"
    rm -rf "$2"
}

# Lays a tree of the crates and of a program of bench/ that isn't part of the gate, whose out/ goes there. Before that it has
# the libraries proved that the program stands on, where they are.
lay_tree() {
    local name=$1 tree=$2 crate
    for crate in $(cut -d : -f 2 "$bench/$name/crates.line"); do
        [ ! -d "$bench/../crates/$crate" ] || (cd "$bench/../crates/$crate" && rt lib) || return
    done
    lift_tree "$name" "$tree" && mkdir -p "$tree/crates" || return
    for crate in "$bench"/../crates/* "$bench/$name"; do copy_crate "$crate" "$tree/crates" || return; done
    take_files "$name" "$tree" || return
    cp "$bench/../HANDLES" "$tree" &&
        cat "$bench/../crates.txt" "$bench/$name/crates.line" >"$tree/crates.txt" &&
        mkdir -p "$bench/$name/out" && rmdir "$tree/crates/$name/out" && mv "$bench/$name/out" "$tree/crates/$name/"
}

# Has rt prove and build a program of bench/ that isn't part of the gate, `program`, where that is due: in a tree of its own,
# which stands while it does. The words after its name are those of a short run of it.
build_beside() {
    needs rt find cut flock
    local name=$1 tree=$bench/out/$1
    shift
    program=$bench/$name/out/$name
    mkdir -p "$bench/out"
    (
        flock 9
        trap 'lift_tree "$name" "$tree"' EXIT
        lay_tree "$name" "$tree" && cd "$tree/crates/$name" && rt run -- "$@"
    ) >"$folder/log" 2>&1 </dev/null 9>"$bench/out/$name.lock" || {
        cat "$folder/log" >&2
        exit 1
    }
}

# Builds a trial of a program of bench/, `program`, as the launcher builds the one that it keeps: optimised, with the checks of a
# trial, and nothing is proved. It is kept until a source changes. rt runs it for a second, whatever comes of that.
try_beside() {
    needs rt find sed
    local name=$1 top tree=$folder/tree crate
    # shellcheck disable=SC2034 # the launcher's lay_kit reads it
    local work=$folder
    top=$(dirname "$bench")
    program=$bench/$name/out/trial/$name
    if [ -x "$program" ] && [ -z "$(find "$top/crates.txt" "$top"/crates/*/src "$top"/crates/*/specs "$bench/$name" \
        -path "$bench/$name/out" -prune -o -newer "$program" -print -quit)" ]; then
        return
    fi
    eval "$(sed -n '/^lay_kit() {/,/^}/p' "$top/ravenhost")"
    (
        lay_kit && mkdir -p "$tree/crates" || exit
        for crate in "$top"/crates/* "$bench/$name"; do copy_crate "$crate" "$tree/crates" || exit; done
        take_files "$name" "$tree" && cp "$top/HANDLES" "$tree" && cat "$top/crates.txt" "$bench/$name/crates.line" >"$tree/crates.txt" &&
            cd "$tree/crates/$name" && "$folder/kit/bin/rt" try --steps 1 --seconds 1
    ) >"$folder/log" 2>&1 </dev/null || true
    if ! [ -x "$folder/made" ]; then
        cat "$folder/log" >&2
        exit 1
    fi
    mkdir -p "${program%/*}" && mv "$folder/made" "$program"
}

# Makes a folder and goes to rv_bench, which the first time is proved and built. The words are those of a short run of it.
enter_rv_bench() {
    needs nproc cut
    [ -r /proc/loadavg ] || missing /proc/loadavg
    take_folder
    build_beside rv_bench "$@"
    cd "$bench/rv_bench"
}

# What the machine is, and what it is at.
machine() {
    echo "$(nproc) cores, load $(cut -d ' ' -f 1 /proc/loadavg) before the first run"
}

# Makes the library that stands before malloc, `allocations`.
build_allocations() {
    needs cc
    allocations=$folder/allocations.so
    cc -O1 -shared -fPIC -o "$allocations" "$bench/shared/allocations.c" -ldl
}
