# The part of wagner-list that builds the program: is_built asks, build does it.

built=$root/target/wagner_list.built
log=$root/target/wagner_list.log

# whether the program is there and no source has changed since it was built
is_built() {
    [ -x "$program" ] && [ -e "$built" ] \
        && [ -z "$(find "$root/crates.txt" "$root/crates" -name out -prune -o -newer "$built" -print 2>/dev/null | head -n 1)" ]
}

# makes the folders that the build fills, target/ and out/ of each crate, before its stamp is made, so that no folder of sources is newer;
# and whether that can be done
make_folders() (
    mkdir -p "$root/target" || exit 1
    : >"$root/target/wagner_list.lock" || exit 1
    for crate in "$root"/crates/*/; do
        mkdir -p "$crate/out" || exit 1
    done
)

# waits while another call builds
wait_for_others() {
    command -v flock >/dev/null 2>&1 || return 0
    exec 9>"$root/target/wagner_list.lock"
    flock -n 9 && return
    say 'another call is building the program: waiting for it.'
    flock 9 &
    child=$!
    wait "$child"
    child=
}

# says which crate the build is at, when that has changed: the first one below the program that has no library, or the program itself once
# rt has said so, since between two libraries that are made anew all may be there
progress() {
    place=1
    for crate in $below wagner_list; do
        [ -e "$root/crates/$crate/out/rlib/stamp" ] || break
        place=$((place + 1))
    done
    if [ "$crate" = wagner_list ] && ! grep -q ' for wagner_list$' "$log"; then return; fi
    if [ "$crate" != "$shown" ]; then
        say "crate $place of $count ($crate), $(($(date +%s) - start)) s."
        shown=$crate
    fi
}

# proves and builds
build() {
    state='the program is not built yet'
    if [ -x "$program" ] && [ -e "$built" ]; then state='the program is older than its sources'; fi
    if ! command -v rt >/dev/null 2>&1; then
        say "$state, and the command rt is missing. Install the Rattle kit (rattle-kit-13f) and put its folder bin on the PATH."
        return 1
    fi
    if ! make_folders 2>/dev/null; then
        say "$state, and its folder cannot be written. Call ./wagner-list once as somebody who can write there: that builds it."
        return 1
    fi
    wait_for_others
    if is_built; then return 0; fi
    say "$state: proving and building it, once. From a fresh clone this takes some minutes."
    below=$(sed -n 's/^wagner_list *://p' "$root/crates.txt")
    count=$(($(echo "$below" | wc -w) + 1))
    start=$(date +%s)
    shown=
    stamp=$work/stamp
    touch "$stamp" || return 1
    (cd "$root/crates/wagner_list" && exec rt run) >"$log" 2>&1 </dev/null &
    child=$!
    while kill -0 "$child" 2>/dev/null; do
        progress
        sleep 1
    done
    wait "$child"
    status=$?
    child=
    if [ "$status" -ne 0 ] || ! [ -x "$program" ]; then
        tail -n 5 "$log" >&2
        say 'it could not be proved and built. target/wagner_list.log has what was said.'
        return 1
    fi
    touch -r "$stamp" "$built"
    say "proved and built in $(($(date +%s) - start)) s."
}
