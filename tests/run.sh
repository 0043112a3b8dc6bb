#!/usr/bin/env bash
# run.sh: runs the main job on real input before anything is proved, by the quick program (lib/quick.sh), or by that which LLHLS names. First `replay`
# answers the script examples/first.script. Then `serve` runs at free ports on loopback with examples/serve.settings: the part of that script is
# published, a request for the next part is held, that part is published, and what the player gets has to be examples/held.expected. The last line is
# the sum, `N passed, M failed`.
. "$(dirname "${BASH_SOURCE[0]}")/lib/common.sh" || exit 2
examples=$root/examples

# publish LINE: shows a publisher's line and its answer.
publish() {
    local answer
    echo "publisher: $1"
    echo "$1" >&"$publisher"
    read -r -t 10 answer <&"$publisher" || give_up 'the publisher has no answer'
    echo "$answer"
}

# start_server: starts the server, and connects a publisher and a player.
start_server() {
    local lines
    mapfile -t lines < <(sed -e '/^listen /d; /^publish /d' -e "s|^record |&$room/|" "$examples/serve.settings")
    serve "$program" "${lines[@]}" || give_up "the server isn't up"
    exec {publisher}<>"/dev/tcp/127.0.0.1/$publish_port" {player}<>"/dev/tcp/127.0.0.1/$port" || give_up "nobody answers at the server's ports"
    echo "llhls serve: players on 127.0.0.1:$port, publishers on 127.0.0.1:$publish_port"
}

# serve_held: has a player wait for a part, and shows what it gets once that is published.
serve_held() {
    local target
    publish "$(sed -n 's/^pub //p' "$examples/first.script")"
    target=$(sed -n 's/^get 1 //p' "$examples/held.script")
    echo "player: GET $target"
    printf 'GET %s HTTP/1.1\r\nHost: localhost\r\nConnection: close\r\n\r\n' "$target" >&"$player"
    if read -r -t 0.5 line <&"$player"; then
        give_up "it is answered before its part: $line"
    fi
    echo '(it waits)'
    publish "$(sed -n 's/^pub //p' "$examples/held.script" | tail -n 1)"
    timeout 10 cat <&"$player" | tr -d '\r' | tee "$room/answer"
}

program=${LLHLS:-$("$lib/quick.sh")} || exit 1
take_program "$program"
echo 'A script publishes a part of the rendition hi, and asks for the playlists of hi and of lo, which has no part yet:'
echo '$ llhls replay < examples/first.script'
if timeout 60 "$program" replay <"$examples/first.script" 2>"$room/said" | tee "$room/written" && cmp "$room/written" "$examples/first.expected"; then
    pass
else
    fail "replay: $(tail -n 5 "$room/said")"
fi
echo
echo 'A server over HTTP, with a player who asks for the part that comes next:'
start_server
serve_held
# The playlist follows the answers to the script's lines.
if sed '1,/^$/d' "$room/answer" | cmp - <(sed '1,/^reply /d' "$examples/held.expected") && kill -0 "$server"; then
    pass
else
    fail "it isn't the playlist of examples/held.expected, or the server has ended: $(tail -n 5 "$log")"
fi
echo
echo "Each output was compared with its file in examples. This program isn't proved: make build proves it, make test proves and tests everything."
told_all
