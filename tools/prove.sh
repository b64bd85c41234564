# shellcheck shell=bash
# For the tools that run rt, which source it and call it at the top of the repository: one of them at a time; what rt says in a file; on a
# terminal, how far it is.

# Says a line on standard error. On a terminal the progress of cargo, which may have called, stands where it goes.
say() {
    if [ -t 2 ]; then printf '\r\033[K' >&2; fi
    echo "$*" >&2
}

# Waits until no other tool is at work here: two would write the same files. The lock is held until `exec 9>&-` or this tool's end.
alone() {
    mkdir -p target
    exec 9> target/lock
    # one that has nothing to make is no cause for a word
    flock --timeout 2 9 && return
    say "tools/${0##*/}: another tool is proving here; waiting for its end"
    flock 9
}

# The toolchain's folder.
toolchain() {
    (cd "$(dirname "$(readlink -f "$(command -v rt)")")/.." && pwd -P)
}

# crates_of NAME: that crate and all that it uses, by crates.txt.
crates_of() {
    awk -F: -v name="$1" '
        function take(crate,    uses, i) {
            if (crate in taken || !(crate in all)) return
            taken[crate]
            print crate
            for (i = split(all[crate], uses, " "); i > 0; i--) take(uses[i])
        }
        { sub(/#.*/, "") }
        # the word staticlib may stand behind a name
        NF > 1 { split($1, words, " "); all[words[1]] = $2 }
        END { take(name) }' crates.txt
}

# for_machine MACHINE: sets `flags` to what rt and rattle are told of it. Code for x86-64 is to run on every such processor; by themselves they
# ask for SSE4.2.
for_machine() {
    flags=(--target "$1-unknown-linux-gnu")
    [ "$1" != x86_64 ] || flags+=(--cpu x86-64)
}

# over_ci NAME ROOT FILE FLAG..: proves the crate NAME alone, whose root file is ROOT, over the libraries that `rt ci` has left in
# crates/*/out/rlib, and compiles it to FILE. (rt itself does not take these: it would prove each again.)
over_ci() {
    local name=$1 root=$2 to=$3 kit crate uses words
    shift 3
    kit=$(toolchain)
    read -ra uses <<< "$(sed -n "s/#.*//; s/^$name\( [^:]*\)\?://p" crates.txt)"
    words=(--crate-name "$name" "$root" --links "$name=" --extern "std=$kit/rlibs/std.rlib" -L "dependency=$kit/rlibs")
    for crate in "${uses[@]}"; do words+=(--extern "$crate=$PWD/crates/$crate/out/rlib/$crate.rlib"); done
    for crate in $(crates_of "$name"); do words+=(-L "dependency=$PWD/crates/$crate/out/rlib"); done
    words+=(--antt-project "$kit/rattle/logic/antt-project.json" --logic-built "$kit/logic_built" --toolchain "$kit/toolchain" --backend llvm)
    (cd "crates/$name" && "$kit/bin/rattle" build "${words[@]}" --jobs 2 "$@" -o "$to")
}

# prove NAME LOG WORDS..: runs WORDS, which prove NAME and what it uses. What they say goes to LOG, whose end is shown where they fail. A function
# among them is to return by itself where a command of it fails: bash goes on here.
prove() {
    local name=$1 log=$2 status=0
    shift 2
    : > "$log"
    begin_progress "$log" "$(crates_of "$name" | wc -l)"
    "$@" < /dev/null > "$log" 2>&1 || status=$?
    end_progress
    [ "$status" -eq 0 ] || { tail -n 20 "$log"; echo "tools/${0##*/}: this is the end of $log"; } >&2
    return "$status"
}

# begin_progress LOG CRATES: on a terminal one line, written anew each second; elsewhere nothing.
begin_progress() {
    [ -t 2 ] || return 0
    SECONDS=0
    # where the tool is killed it ends by itself, and it does not hold the lock
    while kill -0 $$ 2> /dev/null; do
        printf '\r\033[K%s crates proved, of %s at most, %s s' "$(grep -c '^logic=proved' "$1")" "$2" "$SECONDS"
        sleep 1
    done >&2 9>&- &
    progress=$!
}

end_progress() {
    [ -n "${progress:-}" ] || return 0
    kill "$progress" 2> /dev/null || true
    wait "$progress" 2> /dev/null || true
    progress=
    printf '\r\033[K' >&2
}

# a tool that is broken off leaves no half of a line
trap end_progress EXIT

# Proves and builds the program, and puts it where tools/leaf looks.
build_leaf() {
    mkdir -p target/bin
    prove leaf target/leaf.log make_leaf
}

make_leaf() {
    local flags kit
    for_machine x86_64
    if [ -n "${after_ci:-}" ]; then
        kit=$(toolchain)
        over_ci leaf src/main.rt "$PWD/target/leaf.o" "${flags[@]}" &&
            "$kit/bin/rattle-link" --target x86_64-unknown-linux-gnu --toolchain "$kit/toolchain" -o target/leaf.new target/leaf.o \
                "$kit/c/libos_c.a" "$kit/c/liblibc_c.a"
    else
        # rt runs what it builds, here on nothing
        (cd crates/leaf && rt run "${flags[@]}") && mv crates/leaf/out/leaf target/leaf.new
    fi && mv target/leaf.new target/bin/leaf
}
