# shellcheck shell=bash disable=SC2154
# What the launchers bwe and bwe-live share; each sources this file once it has said what it is:
# `here`, the folder of the checkout or of the installed files; `name`, how it is called; `crate`,
# what it launches; a function `help`. `alone`, where it is set, is the crate of a program for the
# command `solve` alone.
#
# A program that stands is called at once. Newer sources are looked for on a terminal, or where
# BWE_BUILD is 1; BWE_BUILD=0 never looks.

# Says which crate is the program: an installed one, or that of the checkout.
launch() {
    crate=$1
    program=$here/programs/$crate
    [ -f "$program" ] || program=$here/crates/$crate/out/$crate
}
launch "$crate"

say() {
    echo "$name: $*" >&2
}

# make in the checkout, also where make called this.
make_here() {
    env -u MAKEFLAGS -u MFLAGS -u MAKELEVEL \
        make -C "$here" --silent --no-print-directory "$@" </dev/null >&2
}

has_sources() {
    [ -f "$here/crates.txt" ]
}

# Whether the program is built of other sources than those that are there: by the sum of them that
# was taken when it was built, or where there is none, by the times of the files.
is_stale() {
    if [ -f "$program.sources" ]; then
        [ "$(<"$program.sources")" != "$(cd "$here" && tools/build/sources "$crate")" ]
    else
        [ -n "$(find "$here"/crates/*/{src,specs,proofs} -newer "$program" -print -quit \
            2>/dev/null)" ]
    fi
}

# Whether newer sources are looked for at all.
looks() {
    has_sources && [ "$BWE_BUILD" != 0 ] && { [ "$BWE_BUILD" = 1 ] || [ -t 2 ]; }
}

version() {
    local kit
    kit=$(<"$here/KIT")
    if has_sources; then
        kit="$kit; rt on the PATH: $(rt version 2>/dev/null || echo none)"
    fi
    echo "$name $(<"$here/VERSION")"
    echo "kit: $kit"
    echo "program: $(what_stands)"
    [ -z "$alone" ] || { launch "$alone" && echo "for solve alone: $(what_stands)"; }
}

what_stands() {
    if [ ! -f "$program" ]; then
        echo "not built yet"
    elif ! has_sources; then
        echo "installed, $program"
    elif is_stale; then
        echo "built of other sources than these; make builds it again"
    elif [ -f "$program.sources" ]; then
        echo "built of these very sources"
    else
        echo "newer than these sources; of which it is built is not known"
    fi
}

# What stands in the way of a build, in words; nothing where it can be done.
hindrance() {
    local it
    has_sources || { echo "there are no sources here" && return; }
    for it in rt make; do
        command -v "$it" >/dev/null || { echo "there is no command $it on the PATH" && return; }
    done
    [ -w "$here/crates" ] || echo "$here may not be written to"
}

# What there is to prove, and how long it takes.
to_come() {
    (cd "$here" && tools/build/left "$crate" | head -n 1)
}

# Builds the program where there is none, or ends with exit status 70.
build_first() {
    local why
    why=$(hindrance)
    if [ -n "$why" ]; then
        say "there is no program $program, and it cannot be built: $why"
        [[ $why != *"command rt"* ]] ||
            say "rt is in the Rattle kit's folder bin; get $(<"$here/KIT")"
        exit 70
    fi
    say "not built yet; all that it is built from is proved first: $(to_come)"
    say "make look shows a first table in 35 s, before any proof"
    build
}

# Builds the program again, where that can be done.
build_again() {
    local why
    why=$(hindrance)
    if [ -n "$why" ]; then
        say "sources are newer than the program, which runs as it stands: $why"
        return
    fi
    say "sources are newer than the program, and are proved first: $(to_come)"
    say "BWE_BUILD=0 in front of the command calls the program as it stands"
    build
}

build() {
    make_here "$crate" && return
    say "the build failed"
    exit 70
}

# Answers the options that are the launcher's own.
answer_options() {
    case $#:$1 in
        1:--help | 1:-h) help && exit ;;
        1:--version) version && exit ;;
    esac
}

# Sees that the program stands.
make_stand() {
    if [ ! -f "$program" ]; then
        build_first
    elif looks && is_stale; then
        build_again
    fi
    [ -x "$program" ] || chmod +x "$program"
}

# shellcheck source=tools/operator/input.bash
. "$here/tools/operator/input.bash"
