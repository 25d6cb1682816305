# Builds the two programs of a checkout: by the gate's own command over a copy of the crates that they are made of. rt ci
# proves all of these from nothing, and side by side what does not stand on each other, as far as memory allows. It takes
# nothing from earlier runs and keeps nothing but the programs. What it prints goes to build.log, and how far it is to the
# standard error, where that is a terminal.
#
# Who reads this file has read launch.sh, and has set `here` to the folder of the checkout. It begins nothing by itself.
# shellcheck shell=sh

programs='rio rio_held'
plain=$here/crates/rio/out/rio
held=$here/crates/rio_held/out/rio_held
lock=$here/crates/rio/out/lock
log=$here/build.log
copy=
builder=

# The crates that the programs are made of, each after those that it uses.
crates_of_programs() {
    awk -v programs="$programs" '
        function visit(name,    below, count, i) {
            if (name in seen || !(name in uses)) return
            seen[name]
            count = split(uses[name], below, " ")
            for (i = 1; i <= count; i++) visit(below[i])
            printf "%s ", name
        }
        { sub(/#.*/, "") }
        split($0, part, ":") == 2 { split(part[1], word, " "); uses[word[1]] = part[2] }
        END {
            count = split(programs, program, " ")
            for (i = 1; i <= count; i++) visit(program[i])
        }
    ' "$here/crates.txt"
}

# Whether one of the programs is missing, or a source newer than one of them. Folders count too: they are newer where a file
# was removed or renamed.
is_stale() {
    [ -x "$plain" ] && [ -x "$held" ] || return 0
    set -- "$here/crates.txt"
    for crate in $crates; do
        set -- "$@" "$here/crates/$crate/src" "$here/crates/$crate/specs" "$here/crates/$crate/proofs"
    done
    [ -n "$(find "$@" \( -newer "$plain" -o -newer "$held" \) 2>/dev/null | head -n 1)" ]
}

# A repository of the programs' crates alone, without edits: those are the gate's to try.
copy_crates() {
    mkdir "$copy/.git" "$copy/crates" && cp "$here/HANDLES" "$copy" || return 1
    for crate in $crates; do
        grep "^${crate}[ :]" "$here/crates.txt" >>"$copy/crates.txt" || return 1
        mkdir "$copy/crates/$crate" || return 1
        for part in src specs proofs args stdin stdout status data; do
            from=$here/crates/$crate/$part
            [ ! -e "$from" ] || cp -R "$from" "$copy/crates/$crate" || return 1
        done
    done
}

# The crates that a check was begun for: it makes their folder out.
begun_crates() {
    for crate in $crates; do
        [ ! -d "$copy/crates/$crate/out" ] || printf '%s ' "$crate"
    done
}

# How far the build is, by its log. A crate ends with `rt: NAME proved` or `rt: NAME NOT PROVED`.
how_far() {
    awk -v crates="$crates" -v begun="$(begun_crates)" '
        BEGIN { of = split(crates, all, " ") }
        /^rt: [a-z0-9_]+ proved$/ { if (!($2 in ended)) count++; ended[$2] }
        /^rt: [a-z0-9_]+ NOT PROVED/ { ended[$2] }
        END {
            for (i = split(begun, name, " "); i >= 1; i--)
                if (!(name[i] in ended)) now = name[i] (now == "" ? "" : ", " now)
            if (now == "") now = count == of ? "their tests" : "beginning"
            printf "%d of %d crates proved, now %s", count, of, now
        }
    ' "$log"
}

# Rewrites the one line on the terminal, which is cut at its width.
progress() {
    [ ! -t 2 ] || printf "\r%.${width}s\033[K" "$1" >&2
}

watch_build() {
    while kill -0 "$builder" 2>/dev/null; do
        seconds=$(($(date +%s) - began))
        progress "rio: $((seconds / 60)) min $((seconds % 60)) s: $(how_far)"
        sleep 1
    done
}

# Of two builds at once the second waits for the lock: 1 is the status where it is taken. Where there is no flock, the
# locks of rt itself must do.
await_turn() {
    while flock -n 9 2>/dev/null; [ $? -eq 1 ]; do
        progress "rio: waiting for another build"
        sleep 1
    done
}

# The programs get the time of the build's beginning, so that a source that is changed meanwhile is newer.
take_programs() {
    for name in $programs; do
        out=$here/crates/$name/out
        cp "$copy/crates/$name/out/$name" "$out/new" && touch -r "$lock" "$out/new" && mv -f "$out/new" "$out/$name" || return 1
    done
}

# After a failure there is no program: the one that was there is stale.
prove_and_build() {
    command -v rt >/dev/null || refuse 70 "there is no command rt here, which proves and builds the program: see README.md"
    : >"$lock"
    copy=$(mktemp -d) || refuse 70 "there is no place for a copy of the crates"
    copy_crates || give_up 70 "the crates cannot be copied to $copy"
    (cd "$copy" && exec rt ci) </dev/null >"$log" 2>&1 &
    builder=$!
    [ ! -t 2 ] || watch_build
    wait "$builder"
    status=$?
    builder=
    if [ "$status" -ne 0 ] || ! take_programs; then
        give_up 70 "the program was not proved and built: see $log"
    fi
    clear_up
}

clear_up() {
    progress ''
    [ -z "$copy" ] || rm -rf "$copy"
    copy=
}

give_up() {
    if [ -n "$builder" ]; then
        kill "$builder" 2>/dev/null
        wait "$builder" 2>/dev/null
    fi
    [ -z "$copy" ] || rm -f "$plain" "$held"
    clear_up
    [ $# -eq 1 ] || echo "rio: $2" >&2
    exit "$1"
}

build_locked() {
    trap 'give_up 129' HUP
    trap 'give_up 130' INT
    trap 'give_up 143' TERM
    began=$(date +%s)
    width=$(stty size <&2 2>/dev/null | cut -d ' ' -f 2)
    [ "${width:-0}" -gt 1 ] || width=80
    width=$((width - 1))
    await_turn
    ! is_stale || prove_and_build
    trap - HUP INT TERM
}

build() {
    for name in $programs; do
        mkdir -p "$here/crates/$name/out" || refuse 70 "the program cannot be built: $here cannot be written"
    done
    build_locked 9>>"$lock" || refuse 70 "the program cannot be built: $here cannot be written"
}

crates=$(crates_of_programs)
