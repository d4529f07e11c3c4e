# Sourced by the scripts of this repository. Sets `top`, the repository's folder, `rt`, the kit's command, and `kit`, the kit's folder, and gives
# `quietly`, `later`, `ready`, `built`, `program` and `rust`; leaves with 2 where there is no kit.
# shellcheck shell=bash disable=SC2034
top=$(dirname "$(dirname "$(readlink -f "${BASH_SOURCE[0]}")")")

rt=$(command -v rt || true)
if [ -z "$rt" ] && [ -n "${RATTLE_HOME:-}" ]; then rt=$RATTLE_HOME/bin/rt; fi
if [ ! -x "$rt" ]; then
    echo "${0##*/}: rt is not found: unpack the Rattle kit and put its bin/ on PATH, or set RATTLE_HOME to its folder" >&2
    exit 2
fi
kit=${RATTLE_HOME:-$(dirname "$(dirname "$(readlink -f "$rt")")")}
if [ ! -f "$kit/KIT-ID" ]; then
    echo "${0##*/}: $rt stands in no Rattle kit: put the bin/ of the kit first on PATH, or set RATTLE_HOME to its folder" >&2
    exit 2
fi

# Tells something where what is under way takes more than two seconds: later WORDS, and then `in_time`.
later() { # WORDS
    { read -r -t 2 <> <(:) || echo "$1" >&2; } </dev/null >/dev/null &
    teller=$!
}
in_time() {
    kill "$teller" 2>/dev/null || true
    wait "$teller" 2>/dev/null || true
}

# Runs rt in a folder of the repository and shows what it says only where it fails, or where it waits for another rt at once.
quietly() { # FOLDER WORDS..
    local said
    said=$({ cd "$top/$1" && "$rt" "${@:2}"; } 2>&1 </dev/null | tee >(grep --line-buffered '^rt: .*waiting for ' >&2)) || {
        printf '%s\n' "$said" >&2
        return 1
    }
}

# Where rt builds a program.
built() { # PROGRAM
    echo "$top/crates/$1/out/$1"
}

# Proves and builds programs, each if something that it is made of has changed. rt builds a program to run it: here for its version alone. Beside the
# gate (LEAN_GATE) they are as rt ci has just built them.
ready() { # PROGRAM..
    local name
    for name in "$@"; do
        if [ "${LEAN_GATE:-}" = "$top" ] && [ -x "$(built "$name")" ]; then continue; fi
        quietly "crates/$name" run -- --version || return 1
    done
}

# Runs a program that is built: it leaves with 0, and tells its verdict elsewhere (tools/habits tries that).
program() { # PROGRAM ARGS..
    "$(built "$1")" "${@:2}"
}

# Builds, runs or tests Rust of this repository, with no network (.cargo/config.toml has the same folder for who calls cargo by hand).
export CARGO_TARGET_DIR=$top/.cargo/target
rust() { # build, run or test, WORDS...
    cargo "$1" --release --quiet --offline --locked --manifest-path "$top/Cargo.toml" "${@:2}"
}
