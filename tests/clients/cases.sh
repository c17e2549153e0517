# The cases of tests/clients/run. Each prints what it meets. `$file` is the URL of a file of its own, `$path` its path in the archive, `$api` where
# tape calls go; `$work/small` and `$work/large` are files.

# What a request of curl is answered.
status() {
    curl -s -m 30 -o "$work/got" -w '%{http_code}' "$@"
}

# A command, at most 60 seconds: whether it succeeds, as 0 or 1, and 17 where it says that the file exists.
ends() {
    timeout 60 "$@" >"$work/out" 2>"$work/err"
    local status=$?
    cat "$work/err" >&2
    case $status in
        0 | 17) echo $status ;;
        *) echo 1 ;;
    esac
}

# Puts a file into the archive, past the front end.
lay() {
    curl -s -o /dev/null -T "${1:-$work/small}" "$url/data$path"
}

# Whether the archive has the file: where it lies, or nothing.
is_there() {
    [ -n "$(curl -s -d "{\"paths\":[\"$path\"]}" "$url/api/v1/archiveinfo" | grep -o locality)" ]
}
kept() {
    is_there && echo "$1 kept" || echo "$1 lost"
}
there() {
    is_there && echo "$1 there" || echo "$1 absent"
}
same_bytes() {
    cmp -s "$work/got" "${2:-$work/small}" && echo "$1 same" || echo "$1"
}
operator() {
    echo --cert "$work/front/operator.pem" --key "$work/front/operator.key"
}

case_curl_put() { status -T "$work/large" "$file"; }
case_curl_put_empty() { status -T "$work/empty" "$file"; }
case_curl_put_chunked() { status -T - "$file" <"$work/large"; }
case_curl_put_without_expect() { status -H 'Expect:' -T "$work/large" "$file"; }
case_curl_put_taken() { lay; kept "$(status -T "$work/large" "$file")"; }
case_curl_put_too_large() { head -c 9000000 /dev/zero >"$work/huge"; status -T "$work/huge" "$file"; }
case_curl_get() { lay; same_bytes "$(status "$file")"; }
case_curl_range() { lay; same_bytes "$(status -r 0-2 "$file")"; }
case_curl_head() { lay; status -I "$file"; }
case_curl_delete() { lay; kept "$(status -X DELETE "$file")"; }
case_curl_delete_operator() { lay; kept "$(status -X DELETE $(operator) "$file")"; }
case_curl_slash() { lay; status -d "{\"paths\":[\"$path\"]}" "$api/api/v1/archiveinfo/"; }
case_curl_slashes() { lay; rm -f "$work/got"; same_bytes "$(status "$base$data//atlas//${path#/atlas/}")"; }
case_curl_data() { lay; rm -f "$work/got"; same_bytes "$(status "$base/data$data$path")"; }
case_curl_abort() {
    timeout 1 curl -s --limit-rate 500K -T "$work/large" "$file" >"$work/out"
    sleep 0.5
    is_there && echo there || echo absent
}
case_curl_copy() { lay; status -X COPY -H 'Destination: https://localhost/x' "$file"; }
case_curl_mkcol() { status -X MKCOL "$file/"; }

case_davix_put() { ends davix-put --capath "$X509_CERT_DIR" "$work/large" "$file"; }
case_davix_get() { lay; rm -f "$work/got"; same_bytes "$(ends davix-get --capath "$X509_CERT_DIR" "$file" "$work/got")"; }
case_davix_rm() { lay; kept "$(ends davix-rm --capath "$X509_CERT_DIR" "$file")"; }
case_davix_rm_operator() { lay; kept "$(ends davix-rm --capath "$X509_CERT_DIR" $(operator) "$file")"; }

case_gfal_copy_up() { there "$(ends gfal-copy "file://$work/large" "$file")"; }
case_gfal_just_copy() { there "$(ends gfal-copy --just-copy "file://$work/large" "$file")"; }
case_gfal_copy_taken() { lay; kept "$(ends gfal-copy "file://$work/large" "$file")"; }
case_gfal_just_copy_taken() { lay; kept "$(ends gfal-copy --just-copy "file://$work/large" "$file")"; }
case_gfal_copy_down() { lay; rm -f "$work/got"; same_bytes "$(ends gfal-copy "$file" "file://$work/got")"; }
case_gfal_stat() { lay; ends gfal-stat "$file"; }
case_gfal_cat() { lay; local status; status=$(ends gfal-cat "$file"); cp "$work/out" "$work/got"; same_bytes "$status"; }
case_gfal_save() { there "$(ends gfal-save "$file" <"$work/small")"; }
case_gfal_rm() { lay; kept "$(ends gfal-rm "$file")"; }
case_gfal_rm_operator() { lay; kept "$(ends gfal-rm $(operator) "$file")"; }

# Puts a file, waits until it is on tape, and puts others until it is on disk no more.
lay_on_tape() {
    lay
    within 20 lies_at DISK_AND_TAPE || echo "never on tape" >&2
    for n in 1 2 3 4 5 6; do
        lies_at TAPE && return
        within 20 room "$n"
    done
}
lies_at() {
    curl -s -d "{\"paths\":[\"$path\"]}" "$url/api/v1/archiveinfo" | grep -q "\"$1\""
}
room() {
    [ "$(curl -s -o /dev/null -w '%{http_code}' -T "$work/huger" "$url/data$path-room$1")" = 201 ]
}
tape() {
    ends /usr/bin/python3 "$here/tape.py" "$@"
}

case_gfal_archivepoll() { lay; tape archive "$file"; }
case_gfal_bringonline() {
    head -c 7000000 /dev/zero >"$work/huger"
    lay_on_tape
    local status
    status=$(tape stage "$file")
    [ "$way" = plain ] || lies_at DISK_AND_TAPE || status="$status off disk"
    echo "$status"
}
case_gfal_evict() { lay; tape evict "$file"; }
case_gfal_cancel() {
    head -c 7000000 /dev/zero >"$work/huger"
    lay_on_tape
    curl -s -o /dev/null -X POST "$url/admin/v1/drive/d1/down"
    curl -s -o /dev/null -X POST "$url/admin/v1/drive/d2/down"
    tape cancel "$file"
    curl -s -o /dev/null -X POST "$url/admin/v1/drive/d1/up"
    curl -s -o /dev/null -X POST "$url/admin/v1/drive/d2/up"
}
case_gfal_thousand() {
    seq 1000 | xargs -P 8 -I{} curl -s -o /dev/null -T "$work/empty" "$url/data$path-{}"
    # shellcheck disable=SC2046
    tape stage $(seq -f "$file-%.0f" 1000)
}

case_xrdcp_up() { there "$(ends xrdcp "$work/large" "$file")"; }
case_xrdcp_down() { lay; rm -f "$work/got"; same_bytes "$(ends xrdcp "$file" "$work/got")"; }
# (ARC asks for a certificate of the user, also over HTTP)
arc() {
    ends env X509_USER_CERT="$work/front/user.pem" X509_USER_KEY="$work/front/user.key" arccp "$@"
}
case_arccp_up() { there "$(arc "$work/large" "$file")"; }
case_arccp_down() { lay; rm -f "$work/got"; same_bytes "$(arc "$file" "$work/got")"; }
