# Varnish in front of `llhls serve`: all who wait for a part are one request there. docs/EDGE.md says what each line is for.
#   varnishd -a 127.0.0.1:6081 -f llhls.vcl -s malloc,256m -p backend_idle_timeout=20 -p timeout_idle=30
vcl 4.1;

backend llhls {
    .host = "127.0.0.1";
    .port = "8080";
    .first_byte_timeout = 190s;
    .between_bytes_timeout = 30s;
}

sub vcl_recv {
    if (req.method != "GET" && req.method != "HEAD") {
        return (synth(405));
    }
    unset req.http.Cookie;
    unset req.http.Authorization;
    if (req.url !~ "^[^?]*/live\.m3u8(\?|$)") {
        # media: its name alone says which
        set req.url = regsub(req.url, "\?.*$", "");
    } else if (req.url !~ "[?&]_HLS_msn=") {
        # the playlist of this moment
        return (pass);
    }
    return (hash);
}

sub vcl_hash {
    hash_data(req.url);
    return (lookup);
}

sub vcl_backend_fetch {
    # the server has no HEAD
    set bereq.method = "GET";
    unset bereq.body;
}

sub vcl_backend_response {
    set beresp.grace = 0s;
    set beresp.keep = 0s;
    if (beresp.status == 200 && bereq.url ~ "[?&]_HLS_msn=") {
        # a target duration is long enough
        set beresp.ttl = 4s;
    } else if (beresp.status == 503) {
        # for those who wait with it
        set beresp.ttl = 0.1s;
    } else if (beresp.status != 200) {
        set beresp.ttl = 0s;
        set beresp.uncacheable = true;
    }
    return (deliver);
}
