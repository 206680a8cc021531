# What the scripts of programs share: what a program is made of, the one in dist/, how it is built and found. It is read by `.`, with the names
#   root     the top of this repository
#   program  the program: the name of its crate
out=$root/out
log=$out/build.log

# The program takes its memory in pages of 2 MB where the system has them: glibc does from 2.35 on, and else looks past it. Another setting of the caller's stays.
export GLIBC_TUNABLES="${GLIBC_TUNABLES-glibc.malloc.hugetlb=1}"

# Says something on standard error, unless ANKI_QUIET is 1.
say() {
    [ "$ANKI_QUIET" = 1 ] || echo "$program: $*" >&2
}

# The lines of crates.txt for the crates that the program is made of, itself at the end. There a crate stands below those that it uses.
lines_of_program() {
    awk -F: -v program="$program" '
        { name[NR] = $1; uses[NR] = $2; line[NR] = $0 }
        END {
            needed[program] = 1
            for (i = NR; i > 0; i--) if (name[i] in needed) { n = split(uses[i], used, " "); for (j = 1; j <= n; j++) needed[used[j]] = 1 }
            for (i = 1; i <= NR; i++) if (name[i] in needed) print line[i]
        }' "$1/crates.txt"
}

crates_of_program() {
    lines_of_program "$1" | cut -d: -f1
}

# All files of the folder's tree that the program is built from: the sources, definitions and proofs of its crates.
files_of_program() {
    (cd "$1" && find $(crates_of_program . | sed 's|.*|crates/&/src crates/&/specs crates/&/proofs|') -type f -print0 2>/dev/null | LC_ALL=C sort -z)
}

# The checksum of all that the program is built from, in this folder. A built program has it in its name or beside it, so none runs for other sources.
sum_of_sources() {
    (cd "$1" && { lines_of_program . && files_of_program . | xargs -0 sha256sum; } | sha256sum | cut -c 1-16)
}

# What dist/ says of the program in it, under this key.
told_of_shipped() {
    sed -n "s/^$1: //p" "$root/dist/$program.txt" 2>/dev/null
}

sum_of_file() {
    sha256sum "$1" 2>/dev/null | cut -d ' ' -f 1
}

# Whether the program in dist/ is of the sources with this sum, and is what was put there.
is_shipped() {
    [ "$(told_of_shipped sources)" = "$1" ] && [ "$(told_of_shipped sha256)" = "$(sum_of_file "$root/dist/$program")" ]
}

# Copies all that the program is built from into a new folder, as a repository of its own, and prints the folder's path.
copy_of_program() {
    made=$(mktemp -d "${TMPDIR:-/tmp}/kuldraff-build-XXXXXX") || return 1
    mkdir "$made/.git" "$made/crates" && cp "$root/HANDLES" "$made" && lines_of_program "$root" >"$made/crates.txt" || return 1
    for crate in $(crates_of_program "$root"); do
        mkdir "$made/crates/$crate" || return 1
        for part in src specs proofs args stdin stdout status data; do
            if [ -e "$root/crates/$crate/$part" ]; then cp -R "$root/crates/$crate/$part" "$made/crates/$crate" || return 1; fi
        done
    done
    echo "$made"
}

# Runs the gate over such a copy, which proves and builds the program there. What the gate proved on this machine before is kept, crate by crate, also if
# it was stopped. What it says goes to the log; standard error tells how far it is, if that is a terminal.
prove_copy() {
    (cd "$1" && rt ci 2>&1; echo "status $?") </dev/null | tee -a "$2" | awk -v is_told="$([ -t 2 ] && echo 1)" -v program="$program" -v all="$(crates_of_program "$1" | wc -l)" '
        $1 == "rt:" && ($3 == "proved" || $4 == "kept:") { done++; if (is_told) print program ": " $2 " is proved, " done " of " all " crates" > "/dev/stderr" }
        $1 == "status" { status = $2 }
        END { exit status }'
}

# Finds the program for the sources as they are, and names it `built`. With the words `- -` it prints its usage and ends with 2.
find_program() {
    # An installed copy has no sources: there the program is the one that came with it.
    if [ -d "$root/crates" ]; then sum=$(sum_of_sources "$root"); else sum=$(told_of_shipped sources); fi
    built=$out/$program-$sum
    [ -x "$built" ] && return 0
    is_shipped "$sum" || return 1
    "$root/dist/$program" - - </dev/null >/dev/null 2>&1
    [ $? -eq 2 ] && built=$root/dist/$program && return 0
    say "dist/$program can't be started here: the processor or the C library is not what dist/$program.txt says it needs"
    return 1
}

build_program() {
    say "proving and building the program first; from nothing that takes hours of processor time"
    : >"$log"
    copy=$(copy_of_program) || return 1
    trap 'rm -rf "$copy"' EXIT
    trap 'exit 130' INT
    trap 'exit 143' TERM HUP
    sum=$(sum_of_sources "$copy")
    prove_copy "$copy" "$log" && rm -f "$out/$program"-* && cp "$copy/crates/$program/out/$program" "$out/new-$$" && mv "$out/new-$$" "$out/$program-$sum"
    status=$?
    rm -rf "$copy"
    trap - EXIT INT TERM HUP
    return $status
}

# Finds the program, and builds it first if it must. Where that can't be, the script ends: with 100 if the toolchain is missing, with 101 if the build failed.
have_program() {
    find_program && return
    if [ ! -d "$root/crates" ]; then
        say "$root/dist/$program is missing or damaged, and there are no sources to build it from"
        exit 101
    fi
    if ! command -v rt >/dev/null 2>&1; then
        say "there is no program of these sources that runs here, and the toolchain's command rt is not on the PATH to build one; nothing was changed; install the toolchain, or take a clone with a program in dist/"
        exit 100
    fi
    if ! mkdir -p "$out" 2>/dev/null || [ ! -w "$out" ]; then
        say "$out can't be written to, so the program can't be built; nothing was changed; see to the rights of that folder"
        exit 101
    fi
    # One call builds at a time. The others wait, and find the program.
    exec 9>"$out/lock"
    flock -n 9 || { say "another call builds the program: waiting for it"; flock 9; }
    until find_program; do
        if ! build_program 9>&-; then
            say "the build failed; nothing was changed; what it printed is in $log"
            exit 101
        fi
    done
    exec 9>&-
}
