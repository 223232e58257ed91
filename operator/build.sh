# Read by the operator's commands, each of which has set `called` to its name: proves the library and builds the commands if
# that has not been done since the last change, and then runs the one that was called.
set -u
say() { echo "operator/$called: $1" >&2; }
built=$root/target/operator

# what the command is made from: every file of the crates and of this folder, and the toolchain
made_from() {
    { rt version; find crates crates.txt operator \( -name must-fail -o -name out \) -prune -o -type f -exec sha256sum {} + | sort; } | sha256sum
}

build() {
    cd "$root" || return 1
    for tool in rt cargo; do
        command -v "$tool" >/dev/null 2>&1 || { say "$tool is not found: install it, or put its folder into PATH"; return 1; }
    done
    mkdir -p "$built" || return 1
    # One build at a time: a second run waits for the first.
    if command -v flock >/dev/null 2>&1; then flock 9; fi
    from=$(made_from) || return 1
    if [ -x "$built/$called" ] && [ "$from" = "$(cat "$built/made_from" 2>/dev/null)" ]; then return 0; fi
    say "proving and building the command (tools/build library exports_c, cargo): a few minutes the first time."
    { tools/build library exports_c 2>&1; echo "status=$?"; } </dev/null | tee "$built/log" | sed -n '/(unchanged since/d; /^tools\/build: /p' >&2
    if [ "$(tail -n 1 "$built/log")" != status=0 ]; then
        say "the library was not proved; the whole report is in target/operator/log"
        return 1
    fi
    # cargo does not see that a linked library is another one: what was built with the former goes
    cmp -s target/staticlib/libexports.a "$built/libsockhurdle.a" ||
        { rm -rf "$built/cargo" && cp target/staticlib/libexports.a "$built/new.a" && mv "$built/new.a" "$built/libsockhurdle.a"; } ||
        return 1
    CARGO_TARGET_DIR=$built/cargo RUSTFLAGS="-L native=$built" \
        cargo build --quiet --release --offline --locked --manifest-path operator/Cargo.toml </dev/null >&2 || return 1
    for made in replay wait picture; do
        cmp -s "$built/cargo/release/$made" "$built/$made" ||
            { cp "$built/cargo/release/$made" "$built/new" && mv "$built/new" "$built/$made"; } || return 1
    done
    echo "$from" >"$built/made_from"
}

case ${1-} in
-h | --help)
    sed -n '2,/^set/s/^# \{0,1\}//p' "$0"
    exit
    ;;
esac
mkdir -p "$built" || exit 4
(build) 9>"$built/lock" || exit 4
exec "$built/$called" "$@"
