# shellcheck shell=bash disable=SC2154
# How the launchers hand files to a program as its standard input, and what they say of a refusal.

# The most that a program reads, and a byte more, so that it sees what is too long.
most=67108865

# Whether an argument names a file that can be read, or is -, standard input.
is_there() {
    [ "$1" = - ] || { [ -r "$1" ] && [ ! -d "$1" ]; }
}

# Opens a file, or standard input for -, as the descriptor `opened`. What is no regular file, as a
# pipe, is read once, into a file without a name, so that its length is known.
open_document() {
    local room
    if [ "$1" != - ] && [ -f "$1" ]; then
        exec {opened}<"$1"
        return
    fi
    room=$(mktemp) || exit 4
    if [ "$1" = - ]; then head -c "$most"; else head -c "$most" <"$1"; fi >"$room"
    exec {opened}<"$room"
    rm -f "$room"
}

# Writes the length of the open document on a line, the document, and the second part behind it.
joined() {
    stat -L -c %s "/dev/fd/$opened" && cat <&"$opened" && exec cat -- "$1"
}

# Runs the program as a child, with standard input as it is, and hands on to it the signals that
# would end a program; `status` is its exit status.
run_as_child() {
    local signal child
    # A child in the background would not hear the keys that end a program.
    env --default-signal=INT,QUIT "$program" "$@" <&0 &
    child=$!
    for signal in TERM HUP INT QUIT; do
        # shellcheck disable=SC2064  # the child of now
        trap "kill -$signal $child 2>/dev/null" "$signal"
    done
    while wait "$child"; status=$?; kill -0 "$child" 2>/dev/null; do :; done
    trap - TERM HUP INT QUIT
}

# Ends as that program did, by its exit status or its signal.
end_as_child() {
    [ "$status" -le 128 ] || kill -s $((status - 128)) $$
    exit "$status"
}

# Whether somebody reads what is said of a refusal, and the tool that says it is there.
explains() {
    { [ -t 1 ] || [ -f /dev/fd/1 ]; } && [ -x "$here/bwe-tools" ]
}

# Says of a refused document what lint says, in a sentence. The document is a file, or standard
# input where that is one.
explain() {
    local document=$1 found
    [ "$document" != - ] || document=/proc/$$/fd/0
    [ ! -f "$document" ] || found=$("$here/bwe-tools" lint "$document" 2>/dev/null |
        sed -nE '/: fault: /{
            s/^.*:([0-9]+:[0-9]+: )fault: /\1/; s/^.*: fault: //; s/ \(bwe: .*\)$//p; q}')
    if [ -n "$found" ]; then
        say "$found"
    else
        say "this input is refused; bwe-tools lint DOCUMENT says why a document is"
    fi
}
