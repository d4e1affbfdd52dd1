# shellcheck shell=bash
# What tools/build/install and tools/build/release share: the folder that works by itself, with the
# programs, the launchers and the tools, which needs no sources and no make. Each sources this file
# in the folder of the repository.

programs=(bwe bwe_live)
launchers=(bwe bwe-live bwe-tools bwe-control)

fail() {
    echo "${0##*/}: $*" >&2
    exit 1
}

# Ends where a program does not stand, or is built of other sources than these.
see_that_programs_stand() {
    local it out
    for it in "${programs[@]}"; do
        out=crates/$it/out/$it
        [ -f "$out" ] || fail "the program $it is not built; make builds it"
        [ ! -f "$out.sources" ] || [ "$(<"$out.sources")" = "$(tools/build/sources "$it")" ] ||
            fail "the program $it is built of other sources than these; make builds it again"
    done
}

# Copies files and folders of the repository, without tests and what tools leave behind.
put() {
    local to=$1
    shift
    mkdir -p "$to"
    tar --exclude=tests --exclude=chaos --exclude=demo --exclude=bench --exclude=mypy.ini --exclude='.?*' \
        --exclude=__pycache__ -cf - -- "$@" |
        tar -xf - -C "$to" --no-same-owner --mode='u=rwX,go=rX'
}

# What has to be there for the launchers and the tools.
put_tree() {
    local to=$1 it
    see_that_programs_stand
    put "$to" VERSION KIT tools/operator tools/packages.txt docs/*.schema.json
    for it in "${launchers[@]}"; do
        [ ! -f "$it" ] || put "$to" "$it"
    done
    [ ! -d control ] || put "$to" control
    mkdir -p "$to/programs"
    for it in "${programs[@]}"; do
        install -m 755 "crates/$it/out/$it" "$to/programs"
        tools/build/sources "$it" >"$to/programs/$it.sources"
    done
    crates >"$to/programs/CRATES"
    (cd "$to/programs" && sha256sum "${programs[@]}" CRATES >SHA256SUMS)
    chmod 644 "$to"/programs/{*.sources,CRATES,SHA256SUMS}
}

# The crates that are proved behind the programs, lowest first: the name, the functions that its last
# proof counted, and the sum of its sources and of those below it.
crates() {
    local it log
    tools/build/chains "${programs[@]}" | while read -r it; do
        log=crates/$it/out/prove.log
        echo "$it $(sed -nE 's/^logic=proved functions=([0-9]+).*/\1/p' "$log" 2>/dev/null |
            tail -n 1) $(tools/build/sources "$it")"
    done | awk 'NF == 2 { $3 = $2; $2 = "-" } { print $1, $2, $3 }'
}
