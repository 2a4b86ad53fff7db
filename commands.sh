# Shared by the commands at the top of the repository: how the program of one is proved, built and run.

# fail WHY: there is nothing to print.
fail() {
    echo "$1" >&2
    exit 1
}

# readable FILE: prints the name of a file by which it is found from any folder, if it can be read.
readable() {
    [[ -r $1 && ! -d $1 ]] || fail "$1: there is no such file to read"
    realpath -s "$1"
}

# crates PROGRAM: the crates of crates.txt that the program is made of, in the order in which rt proves them: each behind those that
# it uses.
crates() {
    awk -v program="$1" -F: '
        function need(name,    used, k, n) {
            if (!(name in uses) || name in needed) return
            needed[name] = 1
            n = split(uses[name], used, " ")
            for (k = 1; k <= n; k++) need(used[k])
            print name
        }
        /^[^#:]+:/ { split($1, words, " "); uses[words[1]] = $2 }
        END { need(program) }' crates.txt
}

# progress PROGRAM: tells how far the proving has come. On a terminal that is one line, written anew in each second in which
# rt says nothing; elsewhere a line for each crate that had to be proved.
progress() {
    local all crate='' place=0 begun=0 line status k
    mapfile -t all < <(crates "$1")
    while :; do
        status=0
        read -r -t 1 line || status=$?
        if [[ $status -gt 128 ]]; then
            [[ ! -t 2 || -z $crate ]] ||
                printf '\r\e[Kproving crate %d of %d: %s' "$place" ${#all[@]} "$crate" >&2
        elif [[ $status -ne 0 ]]; then
            break
        elif [[ $line =~ ^rt:\ chose\ --jobs\ [0-9]+\ for\ ([A-Za-z0-9_]+)$ ]]; then
            crate=${BASH_REMATCH[1]} begun=$SECONDS
            for ((k = 0; k < ${#all[@]}; k++)); do
                [[ ${all[k]} != "$crate" ]] || place=$((k + 1))
            done
        elif [[ $line == 'logic=proved '* && -n $crate ]]; then
            [[ -t 2 ]] || echo "proved $place of ${#all[@]} crates: $crate ($((SECONDS - begun)) s)" >&2
            crate=''
        fi
    done
    [[ ! -t 2 ]] || printf '\r\e[K' >&2
}

# prove PROGRAM: proves the program and builds it, where that is not yet done, or shows what rt said and ends. rt also runs it, here
# on no input, and ends with its status: that it came to this is what says that all is proved and built.
prove() {
    local log=$PWD/target/$1.log
    mkdir -p target
    [[ -x crates/$1/out/$1 ]] || echo "proving and building: this takes some minutes the first time" >&2
    (cd "crates/$1" && rt run < /dev/null 2>&1 > /dev/null) | tee "$log" | progress "$1" || true
    if ! grep -q "^rt: running out/$1;" "$log"; then
        cat "$log" >&2
        exit 1
    fi
}

# run PROGRAM ARGUMENT ..: runs the program. The kit makes programs for x86-64; on another machine they run under an emulator
# (in Debian: qemu-user, libc6-amd64-cross).
run() {
    local emulator=()
    [[ $(uname -m) == x86_64 ]] || emulator=(qemu-x86_64 -L /usr/x86_64-linux-gnu)
    "${emulator[@]}" "crates/$1/out/$1" "${@:2}"
}
