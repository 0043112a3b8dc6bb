#!/usr/bin/env bash
# demo.sh [PROGRAM]: a test pattern from ffmpeg, with a clock in it and a tone, published by `PROGRAM push` to `PROGRAM serve` on loopback, and
# examples/near.py with a page that plays it, until Ctrl-C ends all of it. It prints what to open. PORT is the players' port, 8080 if it isn't set;
# publishers have the next one, and the page the one after that. Without PROGRAM it takes the one that LLHLS names, or the proved one if that is there
# as the sources are now, or else the quick one (tests/lib/quick.sh).
set -eu
cd "$(dirname "${BASH_SOURCE[0]}")/.."

# give_up WORD..: says why there is no demo, and ends.
give_up() {
    echo "demo: $*" >&2
    exit 1
}

for each in ffmpeg python3; do
    command -v "$each" >/dev/null || give_up "$each is not installed"
done
port=${PORT:-8080}
[[ $port =~ ^[1-9][0-9]{0,4}$ ]] && [ "$port" -le 65533 ] || give_up "PORT=$port is no number from 1 to 65533"

# is_free PORT: returns whether a server can listen there.
is_free() {
    python3 -c 'import socket, sys; socket.create_server(("127.0.0.1", int(sys.argv[1])))' "$1" 2>/dev/null
}

number=$port
for who in "the server's players" "the server's publishers" 'the page'; do
    is_free "$number" || give_up "port $number, which is for $who, is taken or forbidden: PORT=NUMBER make demo takes NUMBER and the next two"
    number=$((number + 1))
done
page=$((port + 2))
room=
trap '{ kill -KILL $(jobs -p) && wait; } 2>/dev/null; [ -z "$room" ] || rm -rf "$room"' EXIT
trap 'exit 0' INT TERM HUP

# is_newer: returns whether a source is newer than the proved program.
is_newer() {
    [ -n "$(find crates crates.txt \( -name '*.rt' -o -name crates.txt \) ! -path '*/out/*' -newer "$proved" -print -quit)" ]
}

proved=crates/llhls/out/llhls
program=${1:-${LLHLS:-$proved}}
if [ "$program" = "$proved" ] && { [ ! -x "$proved" ] || is_newer; }; then
    program=$(tests/lib/quick.sh)
fi
[ -f "$program" ] && [ -x "$program" ] || give_up "$program is no program"
program=$(realpath -- "$program")

room=$(mktemp -d)
cat >"$room/settings" <<END
listen 127.0.0.1:$port
publish 127.0.0.1:$((port + 1))
workers 64
channel demo target=2 part=500000 skip=12 window=18 renditions=video first=0 start=$(date +%s)000
END
"$program" serve "$room/settings" &
examples/near.py "$page" "$port" &
mkfifo "$room/pipe"
picture=testsrc2=size=640x360:rate=24
clock="drawtext=text='%{gmtime\\:%T} UTC':x=w-tw-12:y=12:fontsize=28:fontcolor=white:box=1:boxborderw=6:boxcolor=black"
# The pattern has a counter of its own; the clock needs a font.
if ffmpeg -nostdin -loglevel quiet -f lavfi -i "$picture,$clock" -frames:v 1 -f null -; then
    picture=$picture,$clock
fi
ffmpeg -nostdin -loglevel error -re -f lavfi -i "$picture" -f lavfi -i sine=frequency=440 \
    -c:v libx264 -preset veryfast -tune zerolatency -pix_fmt yuv420p -g 48 -c:a aac -f mp4 -movflags +delay_moov+default_base_moof -frag_duration 1000 - >"$room/pipe" &
"$program" push "127.0.0.1:$((port + 1))" demo video part=500000 segment=1600000 <"$room/pipe" &
sleep 0.5
if [ "$(jobs -pr | wc -l)" = 4 ]; then
    cat <<END
A test picture with a tone is published. Open this page, and click for sound there; Ctrl-C here ends all of it:
    http://127.0.0.1:$page/watch.html?/demo/video/live.m3u8
If this machine is a remote one, run this on yours first, and open the same address: ssh -L $page:127.0.0.1:$page HOST
END
    wait -n
fi
give_up 'one of its programs has ended, so all of it ends'
