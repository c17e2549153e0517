# A front end before a server that runs: a test sources this file behind tests/server.sh.

# Starts the front end of deploy/nginx before the server, which has $1 workers and takes bodies of at most $2 bytes. It leaves `$front`, its URL, and
# the environment by which clients trust it. The site of the server names it where it was made by `site_behind`.
start_front() {
    "$root/deploy/nginx/make-trial" "$work/front" "$front_port" "127.0.0.1:$port" "$1" 127.0.0.1:9 "$2" || return 1
    nginx -p "$work/front" -c "$work/front/nginx.conf" 2>/dev/null || return 1
    trap 'nginx -p "$work/front" -c "$work/front/nginx.conf" -s stop 2>/dev/null; stop; rm -rf "$work"' EXIT
    front=https://localhost:$front_port
    export CURL_CA_BUNDLE=$work/front/ca.pem X509_CERT_DIR=$work/front/certificates GFAL_PYTHONBIN=/usr/bin/python3 XRDCP_ALLOW_HTTP=1
    unset X509_USER_CERT X509_USER_KEY X509_USER_PROXY
}

# Makes the site of examples/serve with the address of a front end to be, and a buffer of $1 bytes, as the file `$work/site`. It leaves `$front_port`.
site_behind() {
    front_port=$(free_port)
    sed "s|http://127.0.0.1:8443/|https://localhost:$front_port/|; s|\"buffer\":20000000|\"buffer\":${1:-20000000}|" "$root/examples/serve/site" >"$work/site"
}
