# What the program is built from, and whether a built program is of these sources. tools/program, tools/ship and
# tools/release read this file, with the top of the repository in $root.

out=$root/crates/msr_program/out
built=$out/msr_program    # where rt leaves it
built_from=$out/built-from
shipped=$root/release/built/x86_64-linux/msrepack
shipped_from=$root/release/built/x86_64-linux/built-from

# The lines of crates.txt of the program and of the crates below it.
lines_below() {
    awk '
        { sub(/#.*/, "") }
        NF { $1 = $1; name = $1; sub(/:.*/, "", name); line[name] = $0 }
        END {
            ahead[top = 1] = "msr_program"
            while (top) {
                name = ahead[top--]
                if (name in line && !(name in below)) {
                    below[name]
                    print line[name]
                    count = split(line[name], words, /[ :]+/)
                    for (at = 2; at <= count; at++) ahead[++top] = words[at]
                }
            }
        }' "$root/crates.txt"
}

crates_below() { lines=$(lines_below) && printf '%s\n' "$lines" | sed 's/[ :].*//'; }

# The folders of the sources of these crates, from the top.
folders_below() {
    crates=$(crates_below) || return
    for crate in $crates; do
        for part in src specs proofs; do
            [ ! -d "$root/crates/$crate/$part" ] || printf '%s\n' "crates/$crate/$part"
        done
    done
}

sum_of() { is=$(sha256sum <"$1") && printf '%s\n' "${is%% *}"; }

# One sum of what the program is built from: the names and bytes of the sources of the crates below it, and their lines
# of crates.txt. What no crate below it reads, as a crate of tests, changes nothing.
sources() {
    lines=$(lines_below) && folders=$(folders_below) || return
    sums=$(cd "$root" && find $folders -type f -exec sha256sum {} +) || return
    sorted=$(printf '%s\n' "$lines" "$sums" | LC_ALL=C sort) || return
    is=$(printf '%s\n' "$sorted" | sha256sum) && printf '%s\n' "${is%% *}"
}

# A source that was changed since the file was, by either of its times: a copy can have an old one.
newer_than() {
    folders=$(folders_below) &&
        (cd "$root" && find crates.txt $folders \( -newer "$1" -o -cnewer "$1" \) -print -quit) 2>/dev/null ||
        printf '%s\n' "a source that find cannot tell"
}

# tell PROGRAM SOURCES   The text that stands beside a program: the sum of its sources, its own, and what built it.
tell() {
    is=$(sum_of "$1") && kit=$(rt version) && printf 'sources %s\nprogram %s\nrt %s\n' "$2" "$is" "$kit"
}

# said KEY TEXT
said() { sed -n "s/^$1 //p" "$2" 2>/dev/null; }

# is_whole PROGRAM TEXT   Whether the program has the bytes that the text names.
is_whole() { [ -f "$1" ] && [ -f "$2" ] && is=$(sum_of "$1") && [ "$(said program "$2")" = "$is" ]; }

# is_of PROGRAM TEXT SOURCES   Whether it has, and the text names these sources.
is_of() { [ "$(said sources "$2")" = "$3" ] && is_whole "$1" "$2"; }
