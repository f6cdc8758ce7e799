# What .ci/bindings skips, which reads this from the top of the repository. Each is named, and counted in `skipped`; what a machine
# could have is not skipped, but fails: .ci/bindings says what that is.
skipped=0

say() { echo "bindings: $*"; }

fail() { # WHY
    say "failed: $*"
    exit 1
}

skip() { # WHY
    skipped=$((skipped + 1))
    say "skipped, since $*"
}

# Skips what needs a package, or a tool of it, if the package may be missing.
skip_without() { # TOOL WHAT
    local package
    # A package of another architecture, which a machine has to take first.
    if [ "$1" = musl-dev:arm64 ]; then
        if dpkg --print-foreign-architectures | grep -qx arm64; then fail "$1 is not installed: $2"; fi
        say "skipped, since dpkg takes no packages for arm64 here: $2"
        return
    fi
    package=$(.ci/install package-of "$1") || fail "$2"
    if dpkg-query -W -f '${db:Status-Status}\n' "$package" 2>/dev/null | grep -qx installed; then
        fail "$package is installed, and $1 is not there: $2"
    fi
    if [ "${CI:-}" = true ] && [[ " ${DNW_NO_SERVER_HAS:-} " != *" $package "* ]]; then
        fail "$package is not installed, and .ci/install did not say that no server has it: $2"
    fi
    skip "$package is not installed: $2"
}

has() { # TOOL WHAT
    command -v "$1" >/dev/null && return
    skip_without "$1" "$2"
    return 1
}

# What a script skipped, in lines `skipped, since TOOL is not installed: WHAT`.
pass_on_skips() { # FILE
    local line
    while read -r line; do
        line=${line#*since }
        skip_without "${line%% is not*}" "${line#*: }"
    done < <(grep "skipped, since" "$1")
}
