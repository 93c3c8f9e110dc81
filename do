#!/usr/bin/env bash
# The one door of this repository. `./do --help` has a line for each command.
set -eu
cd "$(dirname "$0")"

usage() {
    cat <<'LINES'
usage: ./do COMMAND

While you change something:
  quick              the checks that need no proof: generated files, names, pages, lists. Half a minute
  generate           writes all files that are generated
  affected [CRATE..] says which crates have to be proved again since the last commit, or after a
                     change of these crates, and how long that takes
  try CRATE [..]     runs a program, or with --test a crate's tests, and proves nothing (rt try)
  check CRATE [..]   proves one crate over what earlier checks left; further words go to rt check
  edits [CRATE..]    tries the edits that must fail, those that the gate leaves out as well: of these
                     crates (rt must-fail), or of all (rt ci)
  quick-bindings     makes the library for C without a proof, and passes its tests and those of Rust
                     and Python. Two to three minutes
  evidence           writes build/EVIDENCE.md: of each clause its lemmas, the edits that break it, and
                     the definitions that one has to read

Before a merge, and after it:
  gate               what a merge has to pass: quick, rt ci, and test
  test               the tests, once rt ci has built the programs: formatted texts, files, faults,
                     validation, libraries, the page, editors, README, the release
  fresh              the gate in a bare Debian that has the kit, Python, gcc and git alone, with a
                     network and without one: before a commit that touches tools/, tests/, release/,
                     do or .ci/
  programs           makes the programs as static files for any Linux after rt ci, and tests them.
                     The gate leaves this out, since each program is proved twice more
  bindings [..]      makes the libraries for C, Rust and Python after rt ci, and tests them; a word
                     says a part: build, test, pages, install, flags
  release [trial]    makes build/release/, or tries it in a bare Debian: programs, libraries, the
                     page, packages for Debian, Python, Rust, npm and VS Code
  bench [NAME [..]]  measures the programs of rt ci: small, parse, hostile, stack, format, server,
                     walks, queries, c, python, crowded and threads. Without a name it measures all of
                     these. query_log and fuzz want their names
LINES
}

# As many checks at a time as there are processors, but no more than four and no more than memory holds at 3.5 GB each.
# RT_JOBS says another number.
jobs_here() {
    local jobs room
    jobs=$(nproc)
    room=$(awk '/^MemAvailable:/ { print int($2 / (3.5 * 1024 * 1024)) }' /proc/meminfo)
    [ "$jobs" -le 4 ] || jobs=4
    [ "$jobs" -le "$room" ] || jobs=$room
    [ "$jobs" -ge 1 ] || jobs=1
    echo "$jobs"
}

# Runs a check. Where it fails, says what mends it, and lets the others go on.
must() {
    local mend=$1
    shift
    "$@" || { echo "./do quick: $* failed. $mend" >&2; failed=1; }
}

# Whether each file of Rattle is as `rt fmt` writes it.
are_formatted() {
    find crates -name '*.rt' -print0 -o -name '*.antt' -print0 | xargs -0 rattle fmt --check
}

quick() {
    failed=0
    must "Run ./do generate." tools/generate/run --check
    must "Change the generator or its input as it says." tools/generate/run --test
    must "Give the new kind a number at the end, or the library another soname." tools/kinds --check
    must "Put the crates of crates.txt in order, or run ./do generate." tools/crates --check
    must "Give the function the name of its rule." tools/rule_names
    must "Give the tables and the examples of docs/FORMAT.md the same rule." tests/format/trial --layouts
    must "Give the option the same name, letter and value in all three." tools/options
    must "Run ./do generate, or mend the page or the list that it names." tools/evidence/run --check
    must "Show in the page what the file has." tests/readme --text
    must "Say in README what docs/SPEED.md has, or change the phrases of tools/speed." tools/speed
    must "Break the line, part the paragraph, or write the sentence in other words." tools/words
    must "Run ./do generate." release/packages/run table --check
    must "Run tools/imports." tools/imports --check
    must "Run rt fmt in the folder of the crate." are_formatted
    must "Mend the line." tools/lint
    return $failed
}

generate() {
    tools/generate/run
    tools/crates
    tools/evidence/run --table
    release/packages/run table
}

tests() {
    tests/format/run
    tests/format/trial crates/gqlfmt/out/gqlfmt 100
    tests/files
    tests/gqlcheck
    tests/faults/run
    release/bindings/run
    tests/figures
    tests/validation
    tests/variables
    tests/queries
    tests/slips/run --check 100
    release/bindings/run pages
    tests/editors/run
    tests/readme --check
    release/packages/run
    release/packages/run test
    release/packages/run trial
}

# Without a proof, so without what the programs of `rt ci` print.
quick_bindings() {
    release/bindings/run quick
    release/bindings/run test-quick
}

# In a copy, where a crate's edits/ are in its must-fail/ with those of the gate. All of them are tried by rt ci, which
# takes what the gate has proved and tries as many at a time as there are processors.
all_edits() {
    copy=$(mktemp -d)
    trap 'rm -rf "$copy"' EXIT
    tar -c --exclude='crates/*/out' crates crates.txt HANDLES | tar -x -C "$copy"
    for folder in "$copy"/crates/*/edits; do
        mkdir -p "${folder%edits}must-fail"
        mv "$folder"/*.edit "${folder%edits}must-fail"
    done
    cd "$copy"
    git init --quiet
    if [ $# -eq 0 ]; then
        RT_JOBS="${RT_JOBS:-$(jobs_here)}" rt ci
    else
        rt must-fail "$@"
    fi
}

# The folder of a crate, which is the first word.
enter() {
    [ -d "crates/${1:-}/src" ] || { echo "./do: no such crate: ${1:-}" >&2; exit 2; }
    cd "crates/$1"
}

command=${1:-}
[ $# -eq 0 ] || shift
case $command in
    quick) quick ;;
    generate) generate ;;
    evidence) exec tools/evidence/run ;;
    affected) exec tools/affected "$@" ;;
    edits) all_edits "$@" ;;
    quick-bindings) quick_bindings ;;
    check) enter "$@"; shift; exec rt check "$@" ;;
    try) enter "$@"; shift; exec rt try "$@" ;;
    test) tests ;;
    programs) exec release/programs/run "$@" ;;
    bindings) exec release/bindings/run "$@" ;;
    release) exec release/packages/run "$@" ;;
    fresh) exec tools/fresh ;;
    gate)
        quick
        RT_JOBS="${RT_JOBS:-$(jobs_here)}" rt ci
        tests
        ;;
    bench)
        measured="small parse hostile stack format server walks queries c python crowded threads"
        if [ $# -eq 0 ]; then
            for each in $measured; do "bench/$each.py"; done
            exit
        fi
        case " $measured query_log fuzz " in
            *" $1 "*) ;;
            *) usage >&2; exit 2 ;;
        esac
        name=$1
        shift
        exec "bench/$name.py" "$@"
        ;;
    --help | -h) usage ;;
    *) usage >&2; exit 2 ;;
esac
