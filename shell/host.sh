# Sourced after shell/run.sh by the commands that link the archive of the proved calls, which links only into programs for x86-64:
# where the processor is another, they are built by Debian's Rust and C for x86-64, and run by its emulator.

host_target=x86_64-unknown-linux-gnu

# finds how a program for x86-64 runs here: $host_runner, nothing on such a processor, and elsewhere what find_runner finds
find_host_runner() {
    needs_x86_64
    find_runner
    host_runner=("${emulator[@]}" "${loader[@]}")
}

# sets what cargo and the C compiler, $host_cc, need to build for x86-64, and to run what they built
find_host_tools() {
    needs_cargo
    find_host_runner
    host_cc=cc
    if [ "$(uname -m)" = x86_64 ]; then
        command -v cc >/dev/null 2>&1 || package gcc libc6-dev
    else
        host_cc=x86_64-linux-gnu-gcc
        RUSTC=$(dpkg -L rustc-web | grep '/bin/rustc$')
        RUSTDOC=$(dirname "$RUSTC")/rustdoc
        export RUSTC RUSTDOC
        export CARGO_TARGET_X86_64_UNKNOWN_LINUX_GNU_LINKER=$host_cc
        export CARGO_TARGET_X86_64_UNKNOWN_LINUX_GNU_RUNNER=$root/bin/run-x86_64
    fi
}

# host_cargo COMMAND WORDS..: cargo on the crates that link the archive, or on those that the words name; where they name a manifest,
# it is a crate of somebody else's, and nothing is said of its packages or its folder
host_cargo() {
    local command=$1 word packages=(-p damsonpouch -p blockrun)
    local ours=(--offline --manifest-path "$root/rust/Cargo.toml" --target-dir "$root/rust/target/host")
    shift
    for word in "$@"; do
        case $word in
        --) break ;;
        -p | -p?* | --package | --package=*) packages=() ;;
        --manifest-path | --manifest-path=*) ours=() packages=() ;;
        esac
    done
    cargo "$command" --target "$host_target" "${ours[@]}" "${packages[@]}" "$@"
}

# builds the Rust programs that link the archive; their folder is $host_bin
build_host() {
    build_archive
    find_host_tools
    host_bin=$root/rust/target/host/$host_target/release
    quietly "$root/rust/target/build-host.log" host_cargo build --release
}

# run_host FILE WORDS..: runs a program that was built for x86-64
run_host() {
    "${host_runner[@]}" "$@"
}
