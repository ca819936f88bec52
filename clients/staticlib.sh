#!/usr/bin/env bash
# bash clients/staticlib.sh capi|command: proves the crate whose functions C calls, with the crates below it, and writes
# target/staticlib/libcapi.a or libcommand.a. The functions of bmp_command.h are those of the crate command_c.
set -eu
cd "$(dirname "$0")/.."
case ${1-} in
    capi) crate=capi ;;
    command) crate=command_c ;;
    *)
        sed -n 2,3p clients/staticlib.sh >&2
        exit 2
        ;;
esac
(cd "crates/$crate" && rt lib)
mkdir -p target/staticlib
cp "crates/$crate/out/lib$crate.a" "target/staticlib/lib$1.a"
