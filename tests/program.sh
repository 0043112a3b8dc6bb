#!/usr/bin/env bash
# Prints the path of the proved program, which it builds first if it isn't there as the sources are now. LLHLS names another program to take.
set -eu
if [ -n "${LLHLS-}" ]; then
    realpath -- "$LLHLS"
else
    exec "$(dirname "${BASH_SOURCE[0]}")/build.sh"
fi
