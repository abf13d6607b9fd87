# shellcheck shell=bash
# For the scripts beside it and the gate.

# Says what a script of host/ is at.
say() { printf 'host/%s: %s\n' "${0##*/}" "$*"; }

# Ends the script with one line.
stop() {
    say "$*" >&2
    exit 1
}

# Installs the Debian packages $2 where the command $1 is not there.
need() {
    command -v "$1" >/dev/null && return
    echo "installing $2 for $1"
    # shellcheck disable=SC2086
    if ! { apt-get update -qq && DEBIAN_FRONTEND=noninteractive apt-get install -y -qq $2; } </dev/null; then
        echo "$1 is not there, and the Debian packages that have it could not be installed: $2" >&2
        return 1
    fi
}

# Ends the script where the kit is not there.
need_kit() { command -v rt >/dev/null || stop "rt, the command of the Rattle kit, is not on the PATH"; }

# Ends the script where the archive is not in the folder $1.
need_archive() { [ -f "$1/libflourscoop.a" ] || stop "target/host/libflourscoop.a is not there: run host/build.sh first"; }

# Runs the command behind $1. All that it says goes to the log $1; rt's own lines are shown and, where it fails, the end of the log.
proving() {
    local log=$1 ended
    shift
    "$@" </dev/null 2>&1 | tee "$log" | { grep -a --line-buffered '^rt:' || true; }
    ended=${PIPESTATUS[0]}
    if [ "$ended" -ne 0 ]; then
        echo "the end of $log:"
        tail -n 30 "$log" | sed 's/^/    /'
        stop "$* failed; $log has all that it said"
    fi
}
