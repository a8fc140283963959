# What ./test and ./prove share, read by both at the top of the repository: parts that count, and what is tried over the programs.
set -u -o pipefail
exec </dev/null
log="$(mktemp)"
errors="$(mktemp)"
table="$(mktemp)"
wrong="$(mktemp)"
fewer="$(mktemp -d)"
trap 'rm -rf "$log" "$errors" "$table" "$wrong" "$fewer"' EXIT
passed=0
failed=0
skipped=0
busy=0
updated=no

# Sets `busy` to the processor time of all that has ended so far, in seconds: of this shell's children, which a subshell hasn't.
look_at_time() {
    times >"$log"
    busy="$(awk 'NR == 2 { split($1 " " $2, it, /[ms ]+/); printf "%d", it[1] * 60 + it[2] + it[3] * 60 + it[4] }' "$log")"
}

# A row of the table of each part's cost.
note_time() { # its name, seconds, seconds of processor time
    awk -v name="$1" -v wall="$2" -v busy="$3" 'BEGIN { printf "| %s | %.1f | %.1f |\n", name, wall / 60, busy / 60 }' >>"$table"
}

# Keeps the output of a failed part, for the end: the log is long.
note_failure() { # its name
    {
        echo "-- $1"
        grep -hiE 'fail|error|refus|wrong|differ|not ' "$errors" | tail -n 20
        grep -hE '[1-9][0-9]* failed|FAILED|NOT PROVED|BAD EDIT|error' "$log" | grep -v ': proved$' | tail -n 20
    } >>"$wrong"
}

# Runs a command as a part, and adds what its last line counts. One that ends without counts, or with none, has failed.
part() { # its name, its command
    local name="$1" began="$SECONDS" before status found good bad left
    shift
    look_at_time
    before="$busy"
    echo "== $name"
    { "$@" 2>&1 >&3 | tee "$errors" >&2; } 3>&1 | tee "$log"
    status=$?
    found="$(tail -n 1 "$log" | grep -oE '[0-9]+ passed, [0-9]+ failed(, [0-9]+ skipped)?$' | tr -dc '0-9 ')"
    read -r good bad left _ <<<"$found 0 0 0"
    passed=$((passed + good))
    failed=$((failed + bad))
    skipped=$((skipped + left))
    if [ "$((good + bad + left))" = 0 ] || { [ "$status" != 0 ] && [ "$bad" = 0 ]; }; then
        failed=$((failed + 1))
        echo "test: $name ended with status $status" >&2
    fi
    [ "$bad$status" = 00 ] || note_failure "$name"
    look_at_time
    note_time "$name" "$((SECONDS - began))" "$((busy - before))"
}

# Installs a package, where it can be had.
fetch() { # flags, the package
    command -v apt-get >/dev/null || return 1
    [ "$updated" = yes ] || apt-get update >&2
    updated=yes
    DEBIAN_FRONTEND=noninteractive apt-get install -y "$@" >&2
}

# Whether a command is present, or its package could be installed.
have() { # the command, its package
    command -v "$1" >/dev/null && return
    fetch "$2"
    command -v "$1" >/dev/null
}

# The same of a module of the system's Python.
have_module() { # the module, its package
    /usr/bin/python3 -c "import importlib.util, sys; sys.exit(importlib.util.find_spec('$1') is None)" 2>/dev/null && return
    fetch --no-install-recommends "$2"
}

# A part that needs Python.
part_in_python() { # its name, its command
    if have python3 python3; then
        part "$@"
    else
        skipped=$((skipped + 1))
        echo "== $1: left out, since python3 can't be had"
    fi
}

finish() {
    local last="$passed passed, $failed failed"
    [ "$skipped" = 0 ] || last="$last, $skipped skipped"
    look_at_time
    note_time "all" "$SECONDS" "$busy"
    echo "== what each part took"
    printf '| Part | Minutes | Processor time |\n|---|---|---|\n'
    cat "$table"
    if [ -s "$wrong" ]; then
        echo "== what failed"
        cat "$wrong"
    fi
    [ -z "${1:-}" ] || echo "$1"
    echo "$last"
    [ "$failed" = 0 ]
    exit
}

# Adds up the lines that count, in one after the others.
added() {
    awk '/^[0-9]+ passed, [0-9]+ failed$/ { passed += $1; failed += $3; next } { print } END { print passed + 0 " passed, " failed + 0 " failed" }'
}

# Of the rows of a file the first of each kind, and then every fourth.
some_rows() { # the file
    awk 'BEGIN { RS = ""; ORS = "\n\n"; FS = "\n" } /^row / { split($2, kind, " "); if (seen[kind[1]]++ % 4) next } { print }' "$1"
}

# The rows, file by file, as many at once as there are processors, the longest first: all but the one that is wrong on purpose, which `rt ci` sees
# reported. With run-time checks each takes a hundred times as long: there are fewer of a kind then, and no change of each octet of a message.
rows() { # the program, a flag for one that is not proved
    local folder=crates/bgp_check_rows/data left_out=wrong.rows file
    if [ "$2" = --unproved ]; then
        left_out='wrong.rows|changes.rows'
        for file in "$folder"/*.rows; do
            some_rows "$file" >"$fewer/${file##*/}"
        done
        folder="$fewer"
    fi
    (cd "$folder" && ls -S -- *.rows | grep -vxE "$left_out" | xargs -P "$(nproc)" -n 1 "$1") | added
}

# Both models at once.
models() { # the program, the one of rows, seed and number of streams, seed and number of lists of events; the defaults where these are empty
    local one other
    # Numbers are two words.
    # shellcheck disable=SC2086
    {
        checks/model/compare-guard "$2" $4 >"$fewer/guard" 2>&1 &
        checks/model/compare "$1" $3
        one=$?
        wait "$!"
        other=$?
        cat "$fewer/guard"
        [ "$one$other" = 00 ]
    } | added
}

documents() {
    part_in_python "documents" docs/draw-session --check
    part_in_python "what would be refused for its text" checks/documents/refusals
    part_in_python "definitions" docs/make-definitions --check
    part_in_python "calls and their contracts" docs/make-proofs --check
    part_in_python "tests of attributes" docs/make-attributes --check
    part_in_python "programs that documents show" checks/documents/library
    part_in_python "links and paths of documents" checks/documents/links
    part_in_python "words of the glossary" checks/documents/words
    part_in_python "words that the glossary finds" checks/documents/words --self-test
    part_in_python "calls that can lack memory" checks/documents/memory
    part_in_python "chart" checks/bench/draw-chart --check
}

# What is tried over the program and the program that checks rows, proved or not.
over_the_programs() { # the program, the one of rows, a flag for one that is not proved
    part "examples" checks/examples/check "$1" $3
    part_in_python "the picture of a run" checks/examples/draw-loop --check "$1"
    # Without strace or a C compiler these parts leave some of their checks out, and count them.
    have strace strace
    have cc gcc
    part "commands" checks/examples/check-commands "$1"
    part "limits" checks/examples/check-limits "$1" $3
    part_in_python "vectors" checks/vectors/check "$1"
    part_in_python "vectors that are altered" checks/vectors/check --self-test
    part_in_python "objects" checks/examples/check-json "$1"
    part_in_python "explained examples" checks/examples/check-explain "$1"
    part "rows" rows "$2" "$3"
    # Without tshark, captures of packets are left out and counted; without bgpdump, what it reads of an MRT file.
    have tshark tshark
    have bgpdump bgpdump
    part_in_python "explained beside tshark" checks/examples/beside-tshark "$1"
    # Of a slow program there are fewer captures of each kind, and fewer streams.
    if [ "$3" = --unproved ]; then
        part_in_python "captures of other forms" checks/contrib/check "$1" 8
        part_in_python "the models" models "$1" "$2" "1 100" "1 15"
    else
        part_in_python "captures of other forms" checks/contrib/check "$1"
        part_in_python "the models" models "$1" "$2" "" ""
    fi
}
