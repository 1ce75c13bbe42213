# shellcheck shell=bash disable=SC2034,SC2154 # some of its variables are set or used by who sources it
# What the scripts share: ./judge, ./quagmuffin, host/lookup, host/clocks, host/cli/cargo and the gate. It has no command of its own; who sources it
# sets `self`, the name that its lines start with, and `root`, the repository.
#
# A program is kept in target/SELF under the fingerprint of what it is built from. The script has `fingerprint`, which tells that number, and
# `make_program`, which builds the program and hands it to `store`.
kept=$root/target/$self
build_log=$root/target/$self-build.log
prover=$root/host/rt

# The crates that host/cli depends on are looked for where Debian's packages of these names put them.
registry=${DEBIAN_CRATES:-/usr/share/cargo/registry}
packages=(librust-clap-dev librust-clap-complete-dev librust-indicatif-dev)

say() { printf '%s: %s\n' "$self" "$*" >&2; }

fail() {
    say "$@"
    exit 2
}

# The folders of Debian's crates; fails where one of them is missing.
debian() {
    local folders
    folders=$(ls -d "$registry"/clap-4.* "$registry"/clap_complete-4.* "$registry"/indicatif-0.17.* 2> /dev/null) && printf '%s\n' "$folders"
}

# A crate and all below it, by crates.txt; of a library that has exports in a crate of their own, NAME_c, these and all below them.
crates() { # CRATE
    awk -F : -v top="$1" '
        function visit(crate,    i, count, names) {
            if (!(crate in below) || crate in visited) return
            visited[crate]
            print crate
            count = split(below[crate], names, " ")
            for (i = 1; i <= count; i++) visit(names[i])
        }
        { sub(/#.*/, ""); split($1, name, " "); below[name[1]] = $2 }
        END { visit(top "_c" in below ? top "_c" : top) }' "$root/crates.txt"
}

# What is built from a crate, all below it and what else is named, in lines: crates.txt, and the sum of each file. They go by what the files hold,
# since a checkout changes their times.
sums() { # CRATE [PATHS...]
    local folders
    folders=$(crates "$1" | sed 's|^|crates/|') && [ -n "$folders" ] && cd "$root" || return
    # shellcheck disable=SC2086 # the names of crates have no spaces
    cat crates.txt && find $folders "${@:2}" \( -name must-fail -o -name out \) -prune -o -type f -exec sha256sum {} + | LC_ALL=C sort
}

# One number for all lines.
number() { sha256sum | cut -d ' ' -f 1; }

# Fails where a tool is missing that the program is not built without.
needs() { # TOOL WHAT-IT-DOES
    command -v "$1" > /dev/null || fail "the program is not built for these sources, and $1, which $2, is not on the PATH"
}

# Tells from the lines of rt how far it is with a crate and all below it.
progress() { # CRATE
    local line count=0 all
    all=$(crates "$1" | wc -l)
    while IFS= read -r line; do
        line=${line#rt: }
        case $line in
        *" proved ("*) count=$((count + 1)) && say "proved $count of $all: ${line/ proved/}" ;;
        "target/staticlib/lib$1.a has "*) say "proved $all of $all: $1" ;;
        *" NOT PROVED"*) say "$line" ;;
        esac
    done
}

# Has host/rt prove a crate and all below it, and make what is built from them.
prove() { # check|staticlib CRATE
    (cd "$root" && "$prover" "$1" "$2" 2>&1 < /dev/null) | tee "$build_log" | progress "$2" || fail "host/rt $1 $2 failed, so there is no program; $build_log says why"
}

# Proves archives in a repository, and leaves them in a folder as shared libraries.
share() { # REPOSITORY FOLDER CRATES...
    local crate root=$1 folder=$2
    mkdir -p "$folder" || fail "$folder: can't be written"
    for crate in "${@:3}"; do
        prove staticlib "$crate"
        gcc -shared -Wl,--build-id=none,--whole-archive "$root/target/staticlib/lib$crate.a" -Wl,--no-whole-archive -o "$folder/$crate.so" > "$build_log" 2>&1 ||
            fail "$crate can't be linked; $build_log says why"
    done
}

# Makes sure that the program of a fingerprint is kept, one run at a time, since all of them prove and build in target/. What is run meanwhile
# doesn't inherit the lock.
build() { # FINGERPRINT
    { mkdir -p "$kept" && exec 9> "$root/target/proved.lock"; } 2> /dev/null || fail "$root/target: can't be written"
    if command -v flock > /dev/null; then
        flock -n 9 || { say "waiting for another run, which is proving or building"; flock 9; }
    fi
    if ! [ -x "$kept/$1" ]; then make_program "$1" 9>&-; fi
    exec 9>&-
}

# Keeps what was built under the fingerprint, and no other, if that is still the sources'.
store() { # FINGERPRINT BUILT proved|built
    cp "$2" "$kept.new" 2> /dev/null || fail "$2: can't be kept in $kept"
    if [ "$(fingerprint)" != "$1" ]; then changed "$3"; fi
    rm -f "$kept"/*
    mv "$kept.new" "$kept/$1" 2> /dev/null || fail "$2: can't be kept in $kept"
}

changed() { fail "the sources changed while they were $1: run it again"; }
