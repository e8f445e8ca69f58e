#!/usr/bin/env bash
# Prints the checksum of what a build of the program is made of: the files of its crates, and their lines in crates.txt.
# With --crates it prints these crates instead, a line each: the crate, and those of the repository that it stands on.
set -eu
export LC_ALL=C
cd "$(dirname "${BASH_SOURCE[0]}")/.."

crates_of_program() {
    awk -F: '!/^#/ && NF { split($1, head, " "); below[head[1]] = $2 }
        function visit(name, words, n, i) {
            if (!(name in below) || name in seen) return
            seen[name] = " "
            n = split(below[name], words, " ")
            for (i = 1; i <= n; i++) {
                visit(words[i])
                if (words[i] in below) seen[name] = seen[name] words[i] " "
            }
        }
        END { visit("vadlgen"); for (name in seen) print name seen[name] }' crates.txt | sort
}

if [ "${1:-}" = --crates ]; then
    crates_of_program
    exit
fi

folders=()
for crate in $(crates_of_program | cut -d ' ' -f 1); do
    for part in src specs proofs; do
        [ -d "crates/$crate/$part" ] && folders+=("crates/$crate/$part")
    done
done
{
    crates_of_program
    find "${folders[@]}" -type f -print0 | sort -z | xargs -0 sha256sum
} | sha256sum | cut -d ' ' -f 1
