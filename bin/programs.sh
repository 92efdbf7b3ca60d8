# What the launchers and ./prove ask of a program. Whoever reads this file has set root to the top of the repository.

# The crates of this repository that a program stands on, lowest first: those that its line in crates.txt names, and
# those that their lines name.
crates_below() {
    awk -v top="$1" '
        function visit(name, named, count, at) {
            if (name in seen) return
            seen[name] = 1
            count = split(below[name], named, " ")
            for (at = 1; at <= count; at++) if (named[at] in below) visit(named[at])
            if (name != top) print name
        }
        /^[a-z]/ {
            split($0, parts, ":")
            split(parts[1], head, " ")
            below[head[1]] = parts[2]
        }
        END { visit(top) }' "$root/crates.txt"
}

# where the proved program stands, if there is one
program_of() {
    echo "$root/crates/$1/out/$1"
}

# The files and folders that a program is made of, with the crates below it: each crate's folders that are named.
sources_of() {
    program=$1
    shift
    for crate in $(crates_below "$program") "$program"; do
        for folder; do
            echo "$root/crates/$crate/$folder"
        done
    done
    echo "$root/crates.txt"
}

# Whether a stamp is newer than all that it stands for. The root may have blanks, so names are taken line by line.
is_newest() {
    stamp=$1
    shift
    [ -e "$stamp" ] || return 1
    [ -z "$("$@" | tr '\n' '\0' | xargs -0 sh -c 'find "$@" -newer "$0" 2> /dev/null | head -n 1' "$stamp")" ]
}

# Whether a proved program stands that is newer than all that it was made of. `rt run` writes its stamp once it has built
# it, and only where no source changed meanwhile.
is_proved() {
    [ -x "$(program_of "$1")" ] && is_newest "$(program_of "$1").stamp" sources_of "$1" src specs proofs
}

# where the program stands that cargo builds
built_of() {
    echo "$root/target/release/$1"
}

# what cargo builds a program of
built_sources_of() {
    sources_of "$1" src
    echo "$root/Cargo.toml"
    echo "$root/rust"
}

# Whether a program stands that cargo built, and that is newer than all that it was made of. Its stamp is as old as the
# beginning of the build.
is_built() {
    [ -x "$(built_of "$1")" ] && is_newest "$(built_of "$1").stamp" built_sources_of "$1"
}

has_rt() {
    command -v rt > /dev/null && return
    echo "$1: the kit's command 'rt' proves the program and runs it, and is not on the PATH" >&2
    return 1
}
