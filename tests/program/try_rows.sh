#!/usr/bin/env bash
# try_rows.sh: runs each row, as rows.sh does, on the quick program (lib/quick.sh): unproved, with checks that stop it at a fault, and so at another
# status than the row's. The last line is `N passed, M failed`.
set -eu
cd "$(dirname "${BASH_SOURCE[0]}")"
program=$(../lib/quick.sh)
exec ./rows.sh "$program"
