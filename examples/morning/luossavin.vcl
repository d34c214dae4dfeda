# The cache of sealed files by Varnish, in the place of the third server in nginx.conf:
#
#   varnishd -a /run/luossavin-cache.sock,mode=666 -f /etc/varnish/luossavin.vcl -s malloc,2g
vcl 4.1;

backend store {
    .path = "/run/luossavin-store.sock";
}

sub vcl_recv {
    # where a file does not open, the opener says no-cache
    if (req.http.Cache-Control ~ "no-cache") {
        set req.hash_always_miss = true;
    }
}

sub vcl_backend_response {
    set beresp.grace = 0s;
    if (beresp.status == 200) {
        set beresp.ttl = 1h;
    } else {
        set beresp.uncacheable = true;
        set beresp.ttl = 0s;
    }
}
