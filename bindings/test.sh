#!/bin/sh
# Builds and runs the tests of the three bindings, and the examples, over the static library.
#
#   bindings/test.sh
#
# LIB is libsentry_c.a or the folder with it (crates/sentry_c/out), KIT the folder of the Rattle kit
# with liblibc_c.a (the folder c beside the file that `rt doc` names). A language whose tool is
# absent is skipped, or with ALL=1 failed. Status 1 if a test fails, or if an archive is absent.
cd "$(dirname "$0")/.." || exit 1

whole() { (cd "$(dirname "$1")" 2>/dev/null && printf '%s/%s\n' "$(pwd)" "$(basename "$1")"); }

lib=${LIB:-crates/sentry_c/out}
[ -d "$lib" ] && lib=$lib/libsentry_c.a
[ -f "$lib" ] || { echo "bindings: no $lib: \`rt lib\` in crates/sentry_c makes it, or set LIB"; exit 1; }
lib=$(whole "$lib")

if [ -z "$KIT" ]; then
    doc=$(rt doc) || { echo "bindings: no rt: set KIT"; exit 1; }
    KIT=$(dirname "$doc")/c
fi
[ -f "$KIT/liblibc_c.a" ] || { echo "bindings: no $KIT/liblibc_c.a: set KIT"; exit 1; }
kit=$(cd "$KIT" && pwd)
cases=$PWD/crates/sentry_cases/stdin
all=$PWD/.ci/all.envelope

# All is built in a copy, so that the repository stays as it is.
work=$(mktemp -d) || exit 1
trap 'rm -rf "$work"' EXIT
cp -R bindings examples "$work" && rm -rf "$work/bindings/rust/target"
here=$work/bindings
make="make -s LIB=$lib KIT_C=$kit"
$make -C "$here/python" clean && $make -C "$here/c" clean || exit 1
cd "$work/examples/envelopes" || exit 1

# Runs a command. Fails if it doesn't end with the status that is due.
ends() {
    due=$1
    shift
    "$@"
    got=$?
    [ "$got" = "$due" ] || { echo "status $got, not $due: $*"; return 1; }
}

# Prints a loss in a report: category, quantity, reason.
loss() { printf '{"category":"%s","quantity":%d,"reason":"%s"}' "$@"; }

# Prints the report of losses, with 0 as its moment and as its length.
report() {
    printf '{}\n{"length":0,"type":"client_report"}\n{"discarded_events":[%s],"timestamp":0}\n' "$1"
}

# Prints what an example printed, so that a report in it is as above.
untimed() {
    sed -e 's/^{"length":[0-9]*,"type":"client_report"}$/{"length":0,"type":"client_report"}/' \
        -e 's/^\({"discarded_events":.*"timestamp":\).*}$/\10}/' "$1"
}

# Of five envelopes the queue has room for three; one of them is an attachment alone.
run_client() {
    ends 0 "$1" event.envelope session.envelope attachment.envelope transaction.envelope \
        log.envelope > "$work/printed" || return 1
    lost="$(loss error 1 queue_overflow),$(loss session 1 queue_overflow)"
    report "$lost,$(loss attachment 10 before_send)" |
        cat transaction.envelope log.envelope - > "$work/due"
    untimed "$work/printed" | cmp - "$work/due" || return 1
    ends 1 "$1" refused/unexpected_eof.envelope && ends 2 "$1" absent.envelope
}

# An event with an attachment, and a profile, whose type the library doesn't know.
run_relay() {
    tail -n 2 attachment.envelope | cat event.envelope - > "$work/left"
    tail -n 2 refused/invalid_item_header.envelope > "$work/profile"
    cat "$work/left" "$work/profile" > "$work/given"
    ends 0 "$1" 10 profile < "$work/given" > "$work/printed" 2> "$work/report" || return 1
    cmp "$work/printed" "$work/left" && cmp "$work/report" /dev/null || return 1
    ends 0 "$1" 9 event < "$work/given" > "$work/printed" 2> "$work/report" || return 1
    head -n 1 event.envelope | cat - "$work/profile" | cmp - "$work/printed" || return 1
    report "$(loss error 1 event_processor),$(loss attachment 10 event_processor)" > "$work/due"
    untimed "$work/report" | cmp - "$work/due" || return 1
    ends 1 "$1" 9 < refused/missing_newline.envelope && ends 2 "$1" < event.envelope
}

# The test; and the client, built over what was installed, as an archive and as a shared object.
test_c() {
    $make -C "$here/c" check || return 1
    $make -C "$here/c" install DESTDIR="$work/root" PREFIX=/usr || return 1
    export PKG_CONFIG_PATH="$work/root/usr/lib/pkgconfig" LD_LIBRARY_PATH="$work/root/usr/lib"
    for how in -Wl,-Bdynamic -Wl,-Bstatic; do
        # (the words of `pkg-config` are apart)
        cc "$work/examples/client.c" $(pkg-config --cflags curdmesa) $how \
            $(pkg-config --libs curdmesa) -Wl,-Bdynamic -o "$work/client" || return 1
        run_client "$work/client" || return 1
    done
    $make -C "$here/c" example && "$here/c/example" "$all" > "$work/normal" 2> "$work/items" || return 1
    [ "$(wc -l < "$work/items")" = 11 ] || { echo "not the items of all.envelope"; return 1; }
}

test_rust() {
    $make -C "$here/c" libcurdmesa.a || return 1
    export CARGO_TARGET_DIR="$work/target"
    (cd "$here/rust" && cargo test -q --offline --all-features && cargo build -q --examples --offline) || return 1
    run_relay "$work/target/debug/examples/relay"
}

# The tests stand in a folder of their own, where they find the package that was installed alone.
test_python() {
    $make -C "$here/python" wheel && python3 -m venv "$work/venv" || return 1
    "$work/venv/bin/pip" install -q --no-index "$here"/python/curdmesa-*.whl || return 1
    mkdir -p "$here/tests" && cp "$here"/python/test_*.py "$here/tests" || return 1
    (cd "$here/tests" && CURDMESA_SO= CASES="$cases" "$work/venv/bin/python" -m unittest -q \
        test_curdmesa test_forwarding test_limits test_faults test_making test_headers test_cases) || return 1
    (cd "$work/examples" && CURDMESA_SO= "$work/venv/bin/python" -m unittest -q)
}

failed=0
# Runs the test of a language if its tools are there.
run() {
    language=$1
    shift
    for tool in "$@"; do
        if ! command -v "$tool" > /dev/null; then
            echo "bindings: $language skipped, no $tool"
            [ -z "$ALL" ] || failed=1
            return
        fi
    done
    if "test_$language" > "$work/log" 2>&1; then
        echo "bindings: $language passed"
    else
        cat "$work/log"
        echo "bindings: $language FAILED"
        failed=1
    fi
}

run c cc make pkg-config
run rust cargo cc make
run python python3 cc make
exit $failed
