#!/bin/sh
# x86_tools.sh: (no test) read by scripts that link a static library of ours into a C or Rust program. The library is x86-64; on Arm the
# program is built for x86-64 and runs under Debian's emulator. What is missing is installed from Debian's packages. The script that reads
# it has set `work`, its folder for logs, and has a function `fail`.

# install PACKAGE..: those of Debian's packages that are missing
install() {
    missing=
    for package in "$@"; do
        dpkg -s "$package" >/dev/null 2>&1 || missing="$missing $package"
    done
    [ -n "$missing" ] || return 0
    echo "installing$missing" >&2
    apt-get update >"$work/apt.log" 2>&1 || true
    # shellcheck disable=SC2086
    DEBIAN_FRONTEND=noninteractive apt-get install -y --no-install-recommends $missing >>"$work/apt.log" 2>&1 ||
        fail "apt-get could not install$missing: $work/apt.log"
}

# Sets cc, a compiler that makes x86-64 programs, nm, which lists their names, and emulator, which runs them: nothing on x86-64.
prepare_c() {
    if [ "$(uname -m)" = x86_64 ]; then
        command -v gcc >/dev/null 2>&1 || install gcc libc6-dev
        cc=gcc nm=nm emulator=
        return
    fi
    install gcc-x86-64-linux-gnu libc6-dev-amd64-cross qemu-user
    cc=x86_64-linux-gnu-gcc nm=x86_64-linux-gnu-nm emulator=qemu-x86_64
}

# static_library NAME: has rt build the static library of a crate, and sets library. rt ci proves the crate and leaves no archive. The default
# processor of rt asks for more than every x86-64 has, and a caller of a library is not told so; --cpu keeps to what all have.
static_library() {
    library=crates/$1/out/lib$1.a
    rm -f "$library"
    (cd "crates/$1" && rt lib --cpu=x86-64) >"$work/lib$1.log" 2>&1 || fail "rt lib in crates/$1: $work/lib$1.log"
    [ -f "$library" ] || fail "rt lib in crates/$1 left no $library: $work/lib$1.log"
}

# Sets rustc, which makes programs for this machine.
prepare_rust() {
    command -v rustc >/dev/null 2>&1 || install rustc gcc libc6-dev
    rustc=$(command -v rustc) || fail "no rustc"
}
