# Shared by the gate and the scripts under tests/ and bench/: the sum of what passed and failed, and how it is reported.
# A script sources this from the top of the repository, adds to the sum, and ends with 'report'.

passed=0
failed=0

# check NAME COMMAND ..: one test; it passes if the command does.
check() {
    local name=$1
    shift
    if "$@"; then
        passed=$((passed + 1))
    else
        echo "FAILED: $name"
        failed=$((failed + 1))
    fi
}

# built PACKAGE: builds a program of the cargo workspace and prints where it is.
built() {
    cargo build --quiet --release -p "$1" && echo "target/cargo/release/$1"
}

# cargo_tests PACKAGE: builds a package of the cargo workspace, runs its tests and adds cargo's own numbers to the sum.
# A build that fails, or a run that counts nothing or ends badly with no failure counted, is a failure itself.
cargo_tests() {
    local log status before=$((passed + failed)) failed_before=$failed result
    log=$(mktemp)
    { cargo build --release -p "$1" && cargo test --release -p "$1" --no-fail-fast; } 2>&1 | tee "$log"
    status=${PIPESTATUS[0]}
    while read -r result; do
        [[ $result =~ ([0-9]+)\ passed\;\ ([0-9]+)\ failed ]] || continue
        passed=$((passed + BASH_REMATCH[1]))
        failed=$((failed + BASH_REMATCH[2]))
    done < <(grep '^test result:' "$log")
    rm -f "$log"
    if [[ $((passed + failed)) -eq $before || ($status -ne 0 && $failed -eq $failed_before) ]]; then
        echo "FAILED: the tests of $1 did not run to their end"
        failed=$((failed + 1))
    fi
}

# added COMMAND ..: runs a command whose last line is 'N passed, M failed' and adds both to the sum.
# One that cannot be run, ends otherwise, or ends badly with no failure counted, is a failure itself. Behind the numbers rt may
# say in brackets what they are of.
added() {
    local log status last
    echo "== $*"
    log=$(mktemp)
    "$@" 2>&1 | tee "$log"
    status=${PIPESTATUS[0]}
    last=$(tail -n 1 "$log")
    if [[ $last =~ ^([0-9]+)\ passed,\ ([0-9]+)\ failed(\ \(.*\))?$ && ($status -eq 0 || ${BASH_REMATCH[2]} -gt 0) ]]; then
        passed=$((passed + BASH_REMATCH[1]))
        failed=$((failed + BASH_REMATCH[2]))
    else
        echo "FAILED: $1 did not run to its end (exit status $status)"
        failed=$((failed + 1))
    fi
    rm -f "$log"
}

# fresh FILE COMMAND ..: runs the command that makes FILE, unless FILE is there and newer than the text of every crate.
fresh() {
    local file=$1
    shift
    if [[ ! -e $file || -n $(find crates.txt crates/*/src crates/*/specs crates/*/proofs -newer "$file" -print -quit) ]]; then
        "$@" && [[ -e $file ]]
    fi
}

# rt makes programs and libraries for x86-64. On another machine C programs are compiled for x86-64 and run under an
# emulator, and Rust programs link a stand-in that has the proved calls made under it (tests/x86).
if [[ $(uname -m) == x86_64 ]]; then
    emulator=() compiler=cc symbols=nm
else
    emulator=(qemu-x86_64 -L /usr/x86_64-linux-gnu) compiler=x86_64-linux-gnu-gcc symbols=x86_64-linux-gnu-nm
fi

# within FOLDER COMMAND ..: runs a command in a folder.
within() {
    (cd "$1" && "${@:2}")
}

# library CRATE: prints the name of a crate's static library, which rt makes unless it is there already.
library() {
    local file=crates/$1/out/lib$1.a
    fresh "$file" within "crates/$1" rt lib >&2 && echo "$file"
}

# runnable FILE: prints the name of a file that runs a program for x86-64: itself, or a script that hands it to the emulator.
runnable() {
    local script=target/x86/run-${1##*/}
    [[ ${#emulator[@]} -gt 0 ]] || { echo "$1"; return; }
    mkdir -p target/x86
    printf '#!/bin/sh\nexec %s %q "$@"\n' "${emulator[*]}" "$PWD/$1" > "$script"
    chmod +x "$script"
    echo "$script"
}

# make_program NAME: has rt prove, build and link a program. rt also runs it, here on no input, and ends with its status, which
# says nothing of the proof: the stamp does, which rt leaves beside what it built of proved text.
make_program() {
    rm -f "crates/$1/out/$1.stamp"
    within "crates/$1" rt run < /dev/null > /dev/null
    [[ -e crates/$1/out/$1.stamp ]]
}

# program NAME: prints the name of a file that runs a proved program, which rt makes unless it is there already.
program() {
    local file=crates/$1/out/$1
    fresh "$file" make_program "$1" >&2 && runnable "$file"
}

# link_calls: says which libraries with the proved calls the cargo workspace links, where the caller has not said so.
link_calls() {
    local host measure
    host=${BARRIEROSE_HOST:-$(library host)} && measure=${BARRIEROSE_MEASURE:-$(library measure)} || return 1
    if [[ ${#emulator[@]} -gt 0 && -z ${BARRIEROSE_HOST:-}${BARRIEROSE_MEASURE:-} ]]; then
        stand_in "$host" "$measure" || return 1
        host=target/x86/libcalls.a measure=target/x86/libcalls.a
    fi
    export BARRIEROSE_HOST=$host BARRIEROSE_MEASURE=$measure
}

# stand_in LIBRARY ..: makes target/x86/libcalls.a, and the server of the proved calls that it asks.
stand_in() {
    local to=target/x86 server
    mkdir -p "$to"
    server=$PWD/$(runnable "$to/server")
    "$compiler" -O2 -Wall -Wextra -Werror -o "$to/server" tests/x86/server.c "$@" &&
        cc -O2 -Wall -Wextra -Werror -DSERVER="\"$server\"" -c -o "$to/stand_in.o" tests/x86/stand_in.c &&
        ar rcs "$to/libcalls.a" "$to/stand_in.o"
}

# copy_tree DIR: puts the files of the repository as they stand into a directory. What rt has proved of them it finds again by
# itself: it looks for what it kept of the same files in other copies on the machine.
copy_tree() {
    git ls-files -z --cached --others --exclude-standard | while IFS= read -rd '' file; do
        [[ ! -e $file ]] || printf '%s\0' "$file"
    done | tar --null -cf - -T - | tar -xf - -C "$1"
}

# give_up WHY: ends a script that lacks what it is to test, as a failure.
give_up() {
    echo "FAILED: $1"
    failed=$((failed + 1))
    report
    exit 1
}

# The last line of a script, and its exit status.
report() {
    echo "$passed passed, $failed failed"
    [[ $failed -eq 0 ]]
}
