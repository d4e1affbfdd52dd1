# What tools/build/prove and tools/build/edits share: a room for a crate. Each sources this file
# once it has set `name`, the crate, and `room`, the folder to be.
#
# rt lets one command at a time work in a crate and in those below it, so crates side by side would
# wait for each other. In a room of its own each has the sources of the crate and of those below it,
# and the libraries below by hard links.

# The crates that this one stands on, and itself at the end.
with_those_below() {
    awk -F: -v name="$name" '
        function visit(crate, words, count, at) {
            if (seen[crate]++ || !(crate in needs)) return
            count = split(needs[crate], words, " ")
            for (at = 1; at <= count; at++) visit(words[at])
            print crate
        }
        { sub(/#.*/, ""); split($1, head, " "); needs[head[1]] = $2 }
        END { visit(name) }' crates.txt
}

furnish_room() {
    local it part
    mkdir -p "$room"
    cp HANDLES "$room"
    for it in $(with_those_below); do
        grep -E "^$it( |:)" crates.txt >>"$room/crates.txt"
        mkdir -p "$room/crates/$it/out"
        for part in src specs proofs; do
            [ ! -d "crates/$it/$part" ] || cp -r "crates/$it/$part" "$room/crates/$it"
        done
        [ ! -d "crates/$it/out/rlib" ] || cp -rl "crates/$it/out/rlib" "$room/crates/$it/out"
    done
}
