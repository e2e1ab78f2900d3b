# How what is not Rattle is built and run: sourced, with the repository's root as the folder, by ./galoxumi, tests/run, the
# Makefile and tests/rebuild. Whoever sources it has defined `lacks REASON`, for a tool that is missing, and `fails WHAT`, for a
# build that fails; neither returns.

archive=target/staticlib/libgaloxumi.a
program=target/cargo/x86_64-unknown-linux-gnu/release/galoxumi

need() {
    command -v "$1" >/dev/null 2>&1 || lacks "no $1: $2"
}

# The archive is x86-64 code: elsewhere a cross compiler links it, and an emulator runs what is linked. Sets cc, the compiler;
# run, the emulator with its words, or nothing; and what cargo needs to know, one folder for all that it builds among it.
for_machine() {
    if [ "$(uname -m)" = x86_64 ]; then
        cc=cc
        run=
        need cc "install Debian's gcc"
    else
        cc=x86_64-linux-gnu-gcc
        need "$cc" "install Debian's gcc-x86-64-linux-gnu"
        need qemu-x86_64 "install Debian's qemu-user"
        # The emulator is told where the cross compiler has the shared libraries.
        libc=$("$cc" -print-file-name=libc.so.6)
        run="qemu-x86_64 -L ${libc%/*/*}"
        export CARGO_TARGET_X86_64_UNKNOWN_LINUX_GNU_RUNNER="$run"
    fi
    CARGO_BUILD_TARGET=x86_64-unknown-linux-gnu
    CARGO_TARGET_DIR="$PWD/target/cargo"
    CARGO_TARGET_X86_64_UNKNOWN_LINUX_GNU_LINKER=$cc
    export CARGO_BUILD_TARGET CARGO_TARGET_DIR CARGO_TARGET_X86_64_UNKNOWN_LINUX_GNU_LINKER
}

for_rust() {
    need cargo "install Rust (rustup, or Debian's cargo where it is 1.84 or later)"
    need rustc "install Rust (rustup, or Debian's rustc where it is 1.84 or later)"
    minor=$(rustc --version | sed -n 's/^rustc 1\.\([0-9]*\).*/\1/p')
    [ "${minor:-0}" -ge 84 ] || lacks "$(rustc --version) is too old: install Rust 1.84 or later (rustup)"
    [ -d "$(rustc --print target-libdir --target "$CARGO_BUILD_TARGET" 2>/dev/null)" ] ||
        lacks "Rust has no library for $CARGO_BUILD_TARGET: run rustup target add $CARGO_BUILD_TARGET"
}

# Whether a file is missing, or older than something in the files and folders named after it, edits and what rt keeps set aside.
is_old() {
    old=$1
    shift
    [ ! -f "$old" ] || [ -n "$(find "$@" -newer "$old" -type f ! -path '*/must-fail/*' ! -path '*/out/*' | head -n 1)" ]
}

# The archive, where it is missing or old. Standard error tells each crate as it is proved. The crate galoxumi_c exports what the
# crate galoxumi answers; the archive has the name of the library.
build_archive() {
    is_old "$archive" crates.txt crates || return 0
    need rt "the archive is missing or old, and the Rattle kit builds it"
    echo 'proving and building the library: some twelve minutes where nothing is proved yet' >&2
    mkdir -p target/staticlib
    { (cd crates/galoxumi_c && rt lib) 2>&1; echo "$?" >target/staticlib/status; } | tee target/staticlib/log |
        awk '/^crate [a-z_0-9]*:/ { crate = $2; sub(/:/, "", crate) } /^logic=proved/ { print "  " crate " proved"; fflush() }' >&2
    [ "$(cat target/staticlib/status)" = 0 ] && cp crates/galoxumi_c/out/libgaloxumi_c.a "$archive" && return
    tail -n 40 target/staticlib/log >&2
    fails 'rt lib, in crates/galoxumi_c: the lines above say why the archive was not built'
}

# The program, where it is missing or old.
build_program() {
    is_old "$program" "$archive" bindings/rust tool || return 0
    echo 'building the program' >&2
    cargo build --quiet --release --offline --manifest-path tool/Cargo.toml >&2 ||
        fails 'cargo: the lines above say why the program was not built'
    touch "$program"
}
