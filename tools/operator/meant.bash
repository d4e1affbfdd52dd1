# shellcheck shell=bash disable=SC2154
# What the launcher of bwe says of arguments that are no command, before the usage line of the
# program: what was likely meant.

commands=(solve check levels run audit tiers estimate enforce make bulk)

# What a command takes, in words.
takes() {
    case $1 in
        solve | check) echo "a document" ;;
        levels) echo "a share from 0 to 1000000000, and a document" ;;
        run) echo "--readers 1 to 64, --reads 0 to 1000, and a document" ;;
        audit) echo "a document, and a printed run" ;;
        tiers) echo "a document, and the tiers of its groups" ;;
        estimate) echo "a window of 1 to 1000 samples, a headroom of 100 to 1000 hundredths," \
            "a document, and its samples" ;;
        enforce) echo "a document, and events" ;;
        make | bulk) echo "a seed, 1 to 1024 groups, and tasks, from as many as groups to 20000" ;;
    esac
}

say_what_is_meant() {
    local near
    if [ $# = 0 ]; then
        say "bwe --help has the commands, each with an example"
    elif [[ " ${commands[*]} " == *" $1 "* ]]; then
        if [ "$own" != 0 ] && [ ${#files[@]} -le "$parts" ]; then
            say_what_is_absent
        else
            say "$1 takes $(takes "$1")"
        fi
    elif is_of_tools "$1"; then
        say "$1 is of bwe-tools: bwe-tools $1"
    elif [[ " demand capacity post state " == *" $1 "* ]]; then
        say "$1 is an input line of bwe-live"
    elif [ $# = 1 ] && [ -f "$1" ]; then
        say "did you mean: bwe solve $1"
    else
        near=$(nearest "$1")
        if [ -z "$near" ]; then
            say "there is no command $1; bwe --help has the commands"
        elif is_of_tools "$near"; then
            say "did you mean $near, which is of bwe-tools?"
        else
            say "did you mean $near?"
        fi
    fi
}

say_what_is_absent() {
    local file
    for file in "${files[@]}"; do
        is_there "$file" || say "there is no file $file to read"
    done
}

is_of_tools() {
    [[ $1 =~ ^[a-z-]+$ ]] && [ -f "$here/tools/operator/bwe_tools/commands/${1//-/_}.py" ]
}

# The command, of bwe or of bwe-tools, that is the fewest letters away, and at most two.
nearest() {
    local it best=3 found='' tools
    [[ $1 =~ ^.{3,16}$ ]] || return
    tools=("$here"/tools/operator/bwe_tools/commands/[!_]*.py)
    tools=("${tools[@]##*/}")
    tools=("${tools[@]%.py}")
    for it in "${commands[@]}" help "${tools[@]//_/-}"; do
        distance "$1" "$it"
        [ "$apart" -ge "$best" ] || { best=$apart && found=$it; }
    done
    [ "$found" != help ] || found=--help
    echo "$found"
}

# Sets `apart`, how many letters have to be put in, left out, changed, or exchanged with their
# neighbour, to make one word of the other.
distance() {
    local one=$1 other=$2 row column here swapped it width=$((${#2} + 1)) ways cells=()
    for ((row = 0; row <= ${#one}; row++)); do
        for ((column = 0; column <= ${#other}; column++)); do
            here=$((row * width + column))
            ways=()
            ((row == 0)) || ways+=($((cells[here - width] + 1)))
            ((column == 0)) || ways+=($((cells[here - 1] + 1)))
            if ((row > 0 && column > 0)); then
                it=1
                [ "${one:row-1:1}" != "${other:column-1:1}" ] || it=0
                ways+=($((cells[here - width - 1] + it)))
            fi
            if ((row > 1 && column > 1)); then
                swapped=${other:column-1:1}${other:column-2:1}
                [ "${one:row-2:2}" != "$swapped" ] ||
                    ways+=($((cells[here - 2 * width - 2] + 1)))
            fi
            cells[here]=${ways[0]:-0}
            for it in "${ways[@]}"; do
                ((cells[here] <= it)) || cells[here]=$it
            done
        done
    done
    apart=${cells[-1]}
}
