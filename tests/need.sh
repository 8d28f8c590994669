# need COMMAND PACKAGE: installs a Debian package where a command is missing. Sourced by the scripts of this folder.
need() {
    command -v "$1" > /dev/null 2>&1 && return 0
    local as_root=
    [ "$(id -u)" = 0 ] || as_root=sudo
    echo "test: $1 is missing; installing Debian's $2"
    export DEBIAN_FRONTEND=noninteractive
    $as_root apt-get update -qq < /dev/null > /dev/null || true
    $as_root apt-get install -y -qq --no-install-recommends "$2" < /dev/null > /dev/null
    command -v "$1" > /dev/null 2>&1 && return 0
    echo "test: $1 is missing, and Debian's $2 did not give it" >&2
    return 1
}

# left_out WHAT: notes what a test leaves out here; tests/run prints it above the verdict.
left_out() {
    [ -z "${LEFT_OUT:-}" ] || echo "$1" >> "$LEFT_OUT"
}

# need_rt: the Rattle kit is no Debian package, so it has to be there.
need_rt() {
    command -v rt > /dev/null 2>&1 && return 0
    echo "test: the command rt of the Rattle kit is not on the PATH" >&2
    return 1
}

# a cargo that rustup put into the home folder, where the PATH does not lead to it
cargo_bin=${CARGO_HOME:-~/.cargo}/bin
if [ -x "$cargo_bin/cargo" ]; then PATH=$cargo_bin:$PATH; fi
