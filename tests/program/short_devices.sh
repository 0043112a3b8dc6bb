#!/usr/bin/env bash
# short_devices.sh PROGRAM: runs each row of rows/ and apply/, and the program's other uses, over devices that give at most 5 bytes a read
# and take at most 7 bytes a write. The last line, `N passed, M failed`, is that of rows.sh, with one test more for reads and one for writes,
# that any was cut.
. "$(dirname "${BASH_SOURCE[0]}")/../lib/common.sh" || exit 2
take_program "$1"
compile "$here/short_devices.c" -shared -fPIC
# The program over such devices. The commands that compare what it wrote keep their own.
cat >"$room/llhls" <<END
#!/bin/sh
LD_PRELOAD='$room/short_devices' CUT_READ='$room/cut_read' CUT_WRITE='$room/cut_write' exec '$program' "\$@"
END
chmod +x "$room/llhls"

"$here/rows.sh" "$room/llhls" >"$log"
add $? "$log" rows.sh
sed '$d' "$log"
for mark in cut_read cut_write; do
    if [ -e "$room/$mark" ]; then
        pass
    else
        fail "$mark: no such call was cut, so nothing was tried"
    fi
done
told_all
