#!/bin/sh
# run_program.sh NAME ARGS..: runs crates/NAME/out/NAME, from any folder. Rattle programs are x86-64; on another machine they run under the
# emulator that lies in the kit.
set -eu
root=$(CDPATH= cd -- "$(dirname -- "$0")/.." && pwd)
name=$1
shift
program=$root/crates/$name/out/$name
if [ ! -f "$program" ]; then
    echo "run_program.sh: $program is not there: rt ci builds it, and so does rt run in crates/$name" >&2
    exit 127
fi
machine=$(uname -m)
if [ "$machine" = x86_64 ]; then
    exec "$program" "$@"
fi
# KIT is the folder above the one where the command rt really lies.
kit=$(dirname -- "$(dirname -- "$(readlink -f -- "$(command -v rt)")")")
exec "$kit/on/$machine/toolchain/bin/qemu-x86_64" "$kit/toolchain/lib/ld-linux-x86-64.so.2" \
    --library-path "$kit/toolchain/lib" "$program" "$@"
