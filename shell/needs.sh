# Sourced after shell/command.sh: what the commands need, how it is had, and what is said where it cannot be had.

# package NAME..: a Debian package that is missing is installed where this runs as root, and named where it does not
package() {
    if [ "$(id -u)" -ne 0 ]; then
        fail "missing Debian package: $* (install it, or run this as root)"
    fi
    echo "installing the Debian package: $*" >&2
    export DEBIAN_FRONTEND=noninteractive
    { apt-get update -qq && apt-get install -y -qq --no-install-recommends "$@"; } >/dev/null 2>&1 ||
        fail "could not install the Debian package: $*"
}

# missing_of NAME..: those of these Debian packages that are not installed
missing_of() {
    local name
    for name in "$@"; do
        [ "$(dpkg-query -W -f '${db:Status-Status}' "$name" 2>/dev/null)" = installed ] || echo "$name"
    done
}

needs_rt() {
    command -v rt >/dev/null 2>&1 || fail "rt is missing: put the Rattle kit's bin folder on the PATH"
}

needs_cargo() {
    command -v cargo >/dev/null 2>&1 || package cargo
}

# needs_x86_64: where the processor is another, Debian's Rust for x86-64 and an emulator for what it builds
needs_x86_64() {
    local missing
    [ "$(uname -m)" != x86_64 ] || return 0
    mapfile -t missing < <(missing_of rustc-web libstd-rust-web-dev:amd64 gcc-x86-64-linux-gnu libc6-dev-amd64-cross qemu-user)
    [ "${#missing[@]}" -gt 0 ] || return 0
    if [ "$(id -u)" -ne 0 ]; then
        fail "missing Debian packages: ${missing[*]} (after dpkg --add-architecture amd64 install them, or run this as root)"
    fi
    echo "this processor is $(uname -m), and the proved calls link into programs for x86-64 alone. As root, this now adds the foreign" \
        "architecture amd64 to the system, if it is not there (dpkg --add-architecture amd64), and installs: ${missing[*]}" >&2
    dpkg --add-architecture amd64
    package "${missing[@]}"
}

# needs_browser: Debian's chromium with its driver, and the library by which its python drives it; $python is that one
needs_browser() {
    local missing
    mapfile -t missing < <(missing_of chromium chromium-driver python3-selenium)
    [ "${#missing[@]}" -eq 0 ] || package "${missing[@]}"
    python=/usr/bin/python3
}
