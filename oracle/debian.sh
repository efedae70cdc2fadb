# For scripts to read in: Debian's folder of Rust crates, and what to do where one is missing.
# The script that reads it has a function `stop`, which says one line and ends.

registry=/usr/share/cargo/registry
oldest=84

# Whether Debian's folder holds a crate, in whatever version.
has_crate() {
    for at in "$registry/$1"-[0-9]*; do
        [ -d "$at" ] && return 0
    done
    return 1
}

install() {
    DEBIAN_FRONTEND=noninteractive apt-get install -y --no-install-recommends "$@"
}

# Installs cargo, rustc and the packages of the named crates, where they are missing.
need_crates() {
    missing=
    for crate in "$@"; do
        has_crate "$crate" || missing="$missing librust-$crate-dev"
    done
    for tool in cargo rustc; do
        command -v "$tool" >/dev/null 2>&1 || missing="$missing $tool"
    done
    missing=${missing# }
    if [ -n "$missing" ]; then
        command -v apt-get >/dev/null 2>&1 || stop "missing: $missing; no apt-get is here to install them, so install them by hand"
        # The names hold no spaces: they are words to be parted.
        # shellcheck disable=SC2086
        said=$({ install $missing || { apt-get update && install $missing; }; } 2>&1) ||
            stop "missing: $missing; apt-get can't install them ($(printf '%s\n' "$said" | tail -n 1)), so install them by hand"
    fi
    minor=$(rustc --version | sed -n 's/^rustc 1\.\([0-9]*\)\..*/\1/p')
    [ "${minor:-0}" -ge "$oldest" ] ||
        stop "$(rustc --version) is too old: put cargo and rustc 1.$oldest or newer first on PATH"
}

# Builds the crate in this folder; says nothing unless something is in the way.
build_quietly() {
    said=$(cargo build --release --offline --quiet --jobs 1 2>&1) && return 0
    line=$(printf '%s\n' "$said" | sed -n 's/^error: [a-z-]*@[^:]*: //p')
    [ -z "$line" ] || stop "$line"
    printf '%s\n' "$said" >&2
    stop "cargo build failed; its words stand above"
}
