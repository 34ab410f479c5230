#!/usr/bin/env bash
# Lists what a program takes from this repository to use one of its crates.
set -euo pipefail

usage() {
    cat <<'TEXT'
usage: tools/closure.sh [--lines | --folders | --kit] CRATE ..

Prints what a program takes to use the named crates: the lines of crates.txt of these crates and of all crates below them,
the lowest first; the folders to copy; and the crates of the kit that they use.

  --lines      only the lines of crates.txt
  --folders    only the folders
  --kit        only the names of the crates of the kit

Statuses: 0 printed; 2 a name or an option is unknown.
TEXT
}

refuse() {
    echo "closure: $1" >&2
    exit 2
}

root=$(cd "$(dirname "$0")/.." && pwd)
part=all
names=()
for word in "$@"; do
    case $word in
        --help) usage; exit 0 ;;
        --lines | --folders | --kit) part=${word#--} ;;
        -*) refuse "no option $word" ;;
        *) names+=("$word") ;;
    esac
done
if [[ ${#names[@]} -eq 0 ]]; then
    usage >&2
    exit 2
fi

# The line of each crate, and the names behind its colon.
declare -A line_of deps_of
while IFS= read -r line || [[ -n $line ]]; do
    line=${line%%#*}
    if [[ $line == *:* ]]; then
        head=${line%%:*}
        line_of[${head%% *}]=$line
        deps_of[${head%% *}]=${line#*:}
    fi
done <"$root/crates.txt"

# Adds a crate of the repository behind those below it, or notes a crate of the kit.
declare -A is_known is_of_kit
order=()
add() {
    local dep
    if [[ -n ${is_known[$1]:-} ]]; then
        return
    fi
    is_known[$1]=yes
    for dep in ${deps_of[$1]}; do
        if [[ -n ${line_of[$dep]:-} ]]; then
            add "$dep"
        else
            is_of_kit[$dep]=yes
        fi
    done
    order+=("$1")
}

for name in "${names[@]}"; do
    if [[ -z ${line_of[$name]:-} ]]; then
        refuse "no crate $name in crates.txt"
    fi
    add "$name"
done

lines() {
    for name in "${order[@]}"; do echo "${line_of[$name]}"; done
}
folders() {
    for name in "${order[@]}"; do echo "crates/$name"; done
}
kit() {
    for name in "${!is_of_kit[@]}"; do echo "$name"; done | LC_ALL=C sort
}

if [[ $part != all ]]; then
    "$part"
    exit 0
fi
echo "# lines of crates.txt"
lines
echo "# folders"
folders
echo "# crates of the kit"
kit
