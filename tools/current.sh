# Whether a program is newer than its sources, read by `bgp` and `test`, which have to start at once and so without Python.

# The folders of a crate and of those that it depends on, its own last, as crates.txt lists them.
folders_of() { # the repository, the crate
    awk -F ':' -v crates="$1/crates/" -v of="$2" '
        /^[^#]/ { split($1, words, " "); name[++count] = words[1]; below[words[1]] = $2 }
        END {
            wanted[of]
            for (i = count; i > 0; i--)
                if (name[i] in wanted) {
                    split(below[name[i]], words, " ")
                    for (j in words) wanted[words[j]]
                }
            for (i = 1; i <= count; i++) if (name[i] in wanted) print crates name[i]
        }' "$1/crates.txt"
}

# Whether no source of a crate is newer than a file. `rt ci` leaves a proved program where ./build does.
is_current() { # the repository, the crate, the file
    local folders
    [ -f "$3" ] || return 1
    mapfile -t folders < <(folders_of "$1" "$2")
    [ -z "$(find "$1/crates.txt" "${folders[@]}" -name out -prune -o -type f -newer "$3" -print -quit)" ]
}
