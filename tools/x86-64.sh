# shellcheck shell=bash
# Sourced by the scripts that build and run hosts. The archive is x86-64 code. On an x86-64 machine hosts are built and run as anywhere.
# On an Arm one they are built by a cross compiler and run under an emulator; what is missing of these is installed from Debian's packages,
# where that is possible.
#   for_c      gives cc, the words of the C compiler, and run, the words that a program is run by (none where it runs by itself)
#   for_rust   gives the same and cargo's settings, and refuses a cargo that is too old

target=x86_64-unknown-linux-gnu
c_packages='gcc-x86-64-linux-gnu libc6-dev-amd64-cross qemu-user'
rust_packages='rustc-web libstd-rust-web-dev:amd64'
cc=()
run=()

# The compiler has Rust's library for x86-64.
has_library() {
    local folder
    folder=$("$1" --print target-libdir --target "$target" 2>/dev/null) && [ -n "$(find "$folder" -name 'libstd-*.rlib' 2>/dev/null)" ]
}

# Debian's compiler stands in /usr/bin, and another before it in the path may lack the library.
rust_compiler() {
    local rustc
    for rustc in rustc /usr/bin/rustc; do
        if command -v "$rustc" >/dev/null && has_library "$rustc"; then
            command -v "$rustc"
            return 0
        fi
    done
    return 1
}

install_packages() { # PACKAGE...
    if [ "$(id -u)" != 0 ] || ! command -v apt-get >/dev/null; then
        printf 'hosts on this machine need these packages of Debian (with its architecture amd64 added): %s\n' "$*" >&2
        return 1
    fi
    {
        dpkg --add-architecture amd64
        apt-get update
        DEBIAN_FRONTEND=noninteractive apt-get install -y --no-install-recommends "$@"
    } >&2
}

# The C compiler and the emulator. Which C library serves is asked when all is installed: a library of amd64 that comes with Rust's packages
# does not go with the loader of the cross compiler's.
compiler_and_emulator() {
    if [ "$(uname -m)" = x86_64 ]; then
        read -r -a cc <<<"${CC:-gcc}"
        return
    fi
    if ! command -v x86_64-linux-gnu-gcc >/dev/null || ! command -v qemu-x86_64 >/dev/null; then
        # shellcheck disable=SC2086 # one word a package
        install_packages $c_packages
    fi
    cc=(x86_64-linux-gnu-gcc)
    run=(qemu-x86_64)
}

# Without the C library of amd64 itself, that of the cross compiler serves.
library() {
    [ "$(uname -m)" = x86_64 ] || [ -e /lib64/ld-linux-x86-64.so.2 ] || export QEMU_LD_PREFIX=${QEMU_LD_PREFIX:-/usr/x86_64-linux-gnu}
}

for_c() {
    compiler_and_emulator
    library
}

# Told before anything is proved or built: an old cargo stumbles over the lock file, and does not say why.
new_enough() { # FOLDER OF THE WORKSPACE
    local wanted found
    wanted=$(sed -n 's/^rust-version = "\(.*\)"$/\1/p' "$1/Cargo.toml")
    found=$(cargo --version 2>/dev/null | cut -d ' ' -f 2) || found=''
    [ -z "$found" ] || ! printf '%s\n' "$wanted" "$found" | sort -CV || return 0
    printf 'The Rust hosts need cargo and rustc %s or newer; found here: %s. ' "$wanted" "${found:-none}" >&2
    printf 'Debian 13 has them as cargo and rustc, Debian 12 as cargo-web and rustc-web.\n' >&2
    return 1
}

for_rust() { # FOLDER OF THE WORKSPACE
    compiler_and_emulator
    new_enough "$1"
    [ "$(uname -m)" != x86_64 ] || return 0
    if ! rust_compiler >/dev/null; then
        # shellcheck disable=SC2086 # one word a package
        install_packages $rust_packages
    fi
    library
    RUSTC=$(rust_compiler)
    RUSTDOC=$(dirname "$RUSTC")/rustdoc
    export RUSTC RUSTDOC CARGO_BUILD_TARGET=$target NASZEPTAN_EMULATED=1
    export CARGO_TARGET_X86_64_UNKNOWN_LINUX_GNU_LINKER=${cc[0]} CARGO_TARGET_X86_64_UNKNOWN_LINUX_GNU_RUNNER=${run[0]}
    # The emulator slows a process of several threads down: it then orders memory accesses by barriers.
    export RUST_TEST_THREADS=${RUST_TEST_THREADS:-1}
}
