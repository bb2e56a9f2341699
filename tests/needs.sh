#!/bin/sh
# Installs what the tests in C need and this machine lacks: on Debian, as root.
# Says what is missing if it cannot, and its exit status is 1 then.
set -u
tools=$(cd "$(dirname "$0")/../tools" && pwd) || exit 2

# by Debian's names, on one line
missing() {
    {
        sh "$tools/cc.sh" missing
        command -v python3 >/dev/null || echo python3
    } | tr '\n' ' '
}

lacks=$(missing)
[ -z "$lacks" ] && exit
if command -v apt-get >/dev/null && [ "$(id -u)" -eq 0 ]; then
    echo "installing: $lacks"
    log=$(mktemp) || exit 2
    trap 'rm -f "$log"' EXIT
    export DEBIAN_FRONTEND=noninteractive
    # A fresh machine has no list of packages, or an old one that names packages
    # which are gone: the lists are fetched if the first try fails.
    apt-get install -y --no-install-recommends $lacks >"$log" 2>&1 ||
        { apt-get update && apt-get install -y --no-install-recommends $lacks; } >"$log" 2>&1 ||
        tail -n 5 "$log"
    lacks=$(missing)
    [ -z "$lacks" ] && exit
fi
echo "missing, by Debian's names: $lacks"
exit 1
