# What the scripts of this folder read of crates.txt. A script that has a function `stop` sources this file.
# shellcheck shell=bash disable=SC2034

# The lines of crates.txt, and the libraries that each crate depends on, lowest first: those of its line, and those that
# these depend on.
lines=()
declare -A below

# Reads the crates.txt of a folder. A crate names only crates of the lines above its own.
read_crates() {
    local line name library part
    while IFS= read -r line; do
        [[ -n $line && $line != "#"* ]] || continue
        [[ $line =~ ^([a-z0-9_]+)(\ staticlib)?:\ ?(.*)$ ]] || stop "this line of crates.txt is not a crate: $line"
        name=${BASH_REMATCH[1]}
        lines+=("$line")
        below[$name]=""
        for library in ${BASH_REMATCH[3]}; do
            if [ -d "$1/crates/$library" ] && [ -z "${below[$library]+known}" ]; then
                stop "crates.txt has $library, which $name uses, below the line of $name"
            fi
            for part in ${below[$library]-} "$library"; do
                [[ " ${below[$name]} " == *" $part "* ]] || below[$name]+="${below[$name]:+ }$part"
            done
        done
    done <"$1/crates.txt"
}

# Prints the libraries that a crate depends on, lowest first.
libraries_of() {
    read_crates .
    [ -n "${below[$1]+known}" ] || stop "crates.txt has no line of $1"
    echo "${below[$1]}"
}
