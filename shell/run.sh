# Sourced after shell/needs.sh by the commands that run programs: builds what is missing, and runs it.

# quietly LOG COMMAND..: what the command says is kept in LOG, and shown where it fails
quietly() {
    local log=$1
    shift
    mkdir -p "$(dirname "$log")"
    "$@" </dev/null >"$log" 2>&1 || {
        cat "$log"
        fail "$*"
    }
}

# builds the Rust programs; their folder is $rust_bin
build_rust() {
    needs_cargo
    rust_bin=$root/rust/target/release
    quietly "$root/rust/target/build.log" \
        cargo build --release --offline --manifest-path "$root/rust/Cargo.toml" --target-dir "$root/rust/target"
}

# at_end COMMAND..: runs it too when this shell ends, however that comes. The signals have traps of their own: without one, bash
# passes over an interrupt that comes while the command that it waits for is ending by itself.
ends=:
at_end() {
    ends="$(printf '%q ' "$@"); $ends"
    trap 'eval "$ends"' EXIT
    trap 'exit 129' HUP
    trap 'exit 130' INT
    trap 'exit 143' TERM
}

# put_in_place MADE PLACE: what was made, a file or a folder, takes the place of what is there, once all of it stands beside that
put_in_place() {
    local beside
    beside=$(dirname "$2")/.$(basename "$2").$$
    at_end put_back "$beside" "$2"
    cp -r "$1" "$beside"
    # a folder that is not empty is not replaced in one move
    [ ! -d "$2" ] || mv -T "$2" "$beside.before"
    mv -T "$beside" "$2"
    put_back "$beside" "$2"
}

# put_back BESIDE PLACE: what was put aside goes back where nothing has taken its place
put_back() {
    [ -e "$2" ] || [ ! -e "$1.before" ] || mv -T "$1.before" "$2"
    rm -rf "$1" "$1.before"
}

# crates_of NAME: NAME and the crates of crates.txt that it stands on, those first
crates_of() {
    awk -F: -v name="$1" '
        function reach(crate,    needs, count, k) {
            if (!(crate in line) || crate in met) return
            met[crate] = 1
            count = split(line[crate], needs, " ")
            for (k = 1; k <= count; k++) reach(needs[k])
            print crate
        }
        { sub(/#.*/, ""); sub(/[ \t]+staticlib$/, "", $1); gsub(/[ \t]/, "", $1); line[$1] = $2 }
        END { reach(name) }' "$root/crates.txt"
}

# tell WORDS: a line on standard error; on a terminal it takes the place of the one before
tell() {
    if [ -t 2 ]; then printf '\r%-70s' "$*" >&2; else echo "$*" >&2; fi
}

# How far the proving is, by what rt has said in $said: "rt: chose --jobs N for CRATE" where it begins to prove a crate, which it does
# not with an unchanged one. Tells the crates begun since the last time; on a terminal, the one at work.
tell_proving() {
    local crate
    while read -r crate; do
        [[ " ${begun[*]} " != *" $crate "* ]] || continue
        begun+=("$crate")
        [ -t 2 ] || tell_at "$crate"
    done < <(sed -nE 's/^rt: chose --jobs [0-9]+ for (.*)$/\1/p' "$said")
    [ ! -t 2 ] || [ "${#begun[@]}" -eq 0 ] || tell_at "${begun[-1]}"
}

# the crate's number is its place among those that are proved
tell_at() {
    local number
    number=$(printf '%s\n' "${crates[@]}" | grep -nxF -e "$1" | cut -d: -f1)
    tell "crate $number of ${#crates[@]}: $1, $((SECONDS - since)) s so far"
}

stop_proving() {
    [ -z "$prover" ] || kill -- "-$prover" 2>/dev/null || true
    prover=
}

# prove NAME LOG COMMAND: `rt COMMAND` in the crate's folder, which proves it and what it stands on, its status, and how far it is all
# the while. It has a process group of its own: what rt has started does not end where rt alone is interrupted.
prove() {
    local crates begun=() since=$SECONDS said=$2 status=0
    mapfile -t crates < <(crates_of "$1")
    : >"$said"
    prover=
    at_end stop_proving
    set -m
    (cd "$root/crates/$1" && exec rt "$3") </dev/null >"$said" 2>&1 3>&- &
    prover=$!
    set +m
    while kill -0 "$prover" 2>/dev/null; do
        tell_proving
        sleep 1
    done
    tell_proving
    wait "$prover" || status=$?
    stop_proving
    [ "$status" -ne 0 ] || tell "${#crates[@]} crates proved, $((SECONDS - since)) s"
    [ ! -t 2 ] || echo >&2
    return "$status"
}

# made_by_rt NAME FILE PLACE COMMAND: PLACE is what `rt COMMAND` in the crate's folder writes as FILE into its out/. It is proved and
# built where it is missing or older than the sources.
made_by_rt() {
    local name=$1 made=$root/crates/$1/out/$2 place=$3 log=$root/target/$4-$1.log began=$root/target/began-$1
    if [ -f "$place" ] && [ -z "$(find "$root/crates.txt" "$root"/crates/*/* -name out -prune -o -newer "$place" -print -quit)" ]; then
        return
    fi
    needs_rt
    echo "proving and building $2, with what is missing of its crates (the first run takes some minutes) ..." >&2
    mkdir -p "$(dirname "$place")"
    : >"$began"
    if ! prove "$name" "$log" "$4" || [ ! -f "$made" ]; then
        rm -f "$place"
        cat "$log"
        fail "rt $4 in crates/$name"
    fi
    cp "$made" "$place.$$"
    # an unchanged one was not built again, but checked now; what was changed since it began is newer
    touch -r "$began" "$place.$$"
    mv "$place.$$" "$place"
}

# build_proved NAME: the program NAME as target/bin/NAME. `rt run` builds it and runs it once, on no input.
build_proved() {
    made_by_rt "$1" "$1" "$root/target/bin/$1" run
}

# proves and writes the archive of the calls that a host links, if it is missing or older than the crates; $archive is its folder.
# Where DAMSONPOUCH_LIB names a folder, the one there is taken as it is.
build_archive() {
    if [ -n "${DAMSONPOUCH_LIB:-}" ]; then
        archive=$(cd "$DAMSONPOUCH_LIB" && pwd) || fail "DAMSONPOUCH_LIB names no folder: $DAMSONPOUCH_LIB"
        [ -f "$archive/libdamsonpouch.a" ] ||
            fail "DAMSONPOUCH_LIB names a folder without libdamsonpouch.a: $DAMSONPOUCH_LIB"
    else
        archive=$root/target/staticlib
        made_by_rt damsonpouch libdamsonpouch.a "$archive/libdamsonpouch.a" lib
    fi
    export DAMSONPOUCH_LIB=$archive
}

# finds how a proved program, which is for x86-64, runs on this processor: elsewhere behind Debian's emulator with Debian's loader and
# C library for x86-64
find_runner() {
    local name cross=/usr/x86_64-linux-gnu/lib
    emulator=()
    loader=()
    [ "$(uname -m)" != x86_64 ] || return 0
    command -v qemu-x86_64 >/dev/null 2>&1 && [ -e "$cross/ld-linux-x86-64.so.2" ] ||
        fail "this processor is $(uname -m), and a proved program is for x86-64: qemu-user and libc6-amd64-cross run it"
    emulator=(qemu-x86_64)
    loader=("$cross/ld-linux-x86-64.so.2" --library-path "$cross")
    # settings of an emulator are none of the program's
    for name in "${!QEMU_@}"; do unset "$name"; done
}

# run_proved NAME: runs a built program, once find_runner has been called
run_proved() {
    "${emulator[@]}" "${loader[@]}" "$root/target/bin/$1"
}
