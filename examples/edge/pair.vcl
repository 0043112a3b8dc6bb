# Varnish in front of two origins that have the same: each request goes to the first that is up, and once more to the other if it isn't answered well. docs/EDGE.md says what each line is for.
#   varnishd -a 127.0.0.1:6081 -f pair.vcl -s malloc,256m -p backend_idle_timeout=20 -p timeout_idle=30
vcl 4.1;

import directors;

# for the backend of llhls.vcl, too
probe default {
    .url = "/cam/hi/live.m3u8";
    .interval = 1s;
    .timeout = 1s;
    .window = 3;
    .threshold = 2;
}

backend other {
    .host = "127.0.0.1";
    .port = "8090";
    .first_byte_timeout = 190s;
    .between_bytes_timeout = 30s;
}

sub vcl_init {
    new either = directors.fallback();
    either.add_backend(llhls);
    either.add_backend(other);
    new again = directors.fallback();
    again.add_backend(other);
    again.add_backend(llhls);
}

sub vcl_backend_fetch {
    if (bereq.retries == 0) {
        set bereq.backend = either.backend();
    } else {
        set bereq.backend = again.backend();
    }
}

sub vcl_backend_response {
    if (bereq.retries == 0 && (beresp.status >= 500 || beresp.status == 400 || beresp.status == 404)) {
        return (retry);
    }
}

sub vcl_backend_error {
    # nobody listens there, or it has gone
    if (bereq.retries == 0) {
        return (retry);
    }
}

include "./llhls.vcl";
