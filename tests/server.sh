# Functions of the tests of a server that runs. A test sources this file: it then has a folder of its own, `$work`, and a server that it
# starts ends with it. Every wait has a bound.

root=$(cd "$(dirname "${BASH_SOURCE[0]}")/.." && pwd) || exit 1
program=$root/crates/cta_main/out/cta_main
name=${name:-$(basename "$0")}
cases=0
failed=0
server=
journal=

if [ ! -x "$program" ]; then
    echo "tests/$name: $program isn't there; rt ci builds it, as does rt run in crates/cta_main" >&2
    exit 1
fi
while read -r package command; do
    if ! command -v "$command" >/dev/null; then
        if [ "$CTA_NO_PACKAGES" = 1 ]; then
            echo "tests/$name: left out, $package isn't installed" >&2
            exit 0
        fi
        echo "tests/$name: FAILED, Debian's package $package isn't installed (CTA_NO_PACKAGES=1 leaves these tests out)" >&2
        exit 1
    fi
done < <("$root/tests/packages" "$name")
work=$(mktemp -d) || exit 1
trap 'stop; umount "$work/small" 2>/dev/null; rm -rf "$work"' EXIT

# Counts a case, with its name and whether it passed.
check() {
    cases=$((cases + 1))
    if [ "$2" -ne 0 ]; then
        failed=$((failed + 1))
        echo "tests/$name: FAILED: $1" >&2
    fi
}

# Counts a case that passes where two words are the same.
same() {
    [ "$2" = "$3" ]
    local differs=$?
    check "$1: ${3:-nothing}, and not ${2:-nothing}" $differs
}

# Prints how many cases there were, and ends the test.
finish() {
    echo "tests/$name: $((cases - failed)) of $cases cases passed" >&2
    [ "$failed" -eq 0 ]
    exit $?
}

free_port() {
    python3 -c 'import socket; s = socket.socket(); s.bind(("127.0.0.1", 0)); print(s.getsockname()[1])'
}

# Starts a server of the site $1 over the folder $2 with $3 workers, and waits until it answers, at most 10 seconds. What stands behind
# these words is put before the program's name. Where `$journal` names a file, the server keeps its history in it. It leaves `$url`, `$server`,
# its process, and `$said`, what it says on standard error.
start() {
    local site=$1 media=$2 workers=$3
    shift 3
    port=$(free_port)
    url=http://127.0.0.1:$port
    said=$work/said.$port
    if [ -n "$journal" ]; then
        "$@" "$program" durable "$site" "127.0.0.1:$port" "$media" "$workers" "$journal" >/dev/null 2>"$said" &
    else
        "$@" "$program" serve "$site" "127.0.0.1:$port" "$media" "$workers" >/dev/null 2>"$said" &
    fi
    server=$!
    for _ in $(seq 100); do
        curl -s -o /dev/null -m 1 "$url/.well-known/wlcg-tape-rest-api" && return 0
        kill -0 "$server" 2>/dev/null || break
        sleep 0.1
    done
    return 1
}

# Ends the server, and waits for it, at most 5 seconds.
stop() {
    [ -n "$server" ] || return 0
    kill "$server" 2>/dev/null
    for _ in $(seq 50); do
        kill -0 "$server" 2>/dev/null || break
        sleep 0.1
    done
    kill -9 "$server" 2>/dev/null
    wait "$server" 2>/dev/null
    server=
}

# Runs a command until it succeeds, at most so many seconds.
within() {
    local seconds=$1 end=$((SECONDS + $1))
    shift
    while ! "$@"; do
        [ $SECONDS -lt $end ] || return 1
        sleep 0.1
    done
}

# What a request is answered: the status; the body goes to the file `$work/body`. It takes at most 30 seconds.
ask() {
    curl -s -m 30 -o "$work/body" -w '%{http_code}' "$@"
}

# Puts a file under a path: the status.
put() {
    ask -H 'Expect:' -T "$2" "$url/data$1"
}

# Posts a body: the status.
post() {
    ask -H 'Expect:' -d "$2" "$url$1"
}

# Where a file lies.
locality() {
    post /api/v1/archiveinfo "{\"paths\":[\"$1\"]}" >/dev/null
    python3 -c 'import json, sys; print(json.load(open(sys.argv[1]))[0].get("locality"))' "$work/body"
}

# Whether a file lies there.
lies() {
    [ "$(locality "$1")" = "$2" ]
}

# The SHA-256 of a file.
sum_of() {
    sha256sum "$1" | cut -d' ' -f1
}

# A member of the body of the last reply, by a Python expression over `body`.
of_body() {
    python3 -c 'import json, sys; body = json.load(open(sys.argv[1])); print(eval(sys.argv[2]))' "$work/body" "$1"
}
