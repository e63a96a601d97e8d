#!/bin/sh
# Gradescope calls this once, as root, when it builds the image: it sees to Python, and marks an empty folder.
set -eu
home=$(CDPATH= cd -- "$(dirname -- "$0")" && pwd)
. "$home/pack.sh"
chmod +x "$home/lc3lab" "$home/grader/grade" "$home/run_autograder"

# Python is there, and so is what reads a task: before Python 3.11 that is a package of its own.
can_read() {
    python3 -c 'import tomllib' 2>/dev/null || python3 -c 'import tomli' 2>/dev/null
}

if ! can_read; then
    export DEBIAN_FRONTEND=noninteractive
    apt-get update
    apt-get install -y --no-install-recommends python3
    can_read || apt-get install -y --no-install-recommends python3-tomli
fi
"$home/lc3lab" --version || {
    echo "setup.sh: lc3lab needs glibc 2.34 or later: choose an image of Ubuntu 22.04, Debian 12 or later" >&2
    exit 1
}
room=$(mktemp -d)
trap 'rm -rf "$room"' EXIT
mark --brief -- "$home/task/$task" "$room"
