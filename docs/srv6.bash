# Completion of the program srv6 and of its tools for bash: `source docs/srv6.bash`, or copy it to
# ~/.local/share/bash-completion/completions/srv6.

# Prints the names of the nodes that a description has, from its [[node]] tables or its list `node = [{ .. }]`.
_srv6_nodes() {
    awk '
        function print_names(line,   name) {
            while (match(line, /(^|[ \t{,])name[ \t]*=[ \t]*["\047][A-Za-z0-9_.-]+["\047]/)) {
                name = substr(line, RSTART, RLENGTH)
                line = substr(line, RSTART + RLENGTH)
                gsub(/^[^"\047]*.|.$/, "", name)
                print name
            }
        }
        /^[ \t]*\[/ { in_node = /^[ \t]*\[\[[ \t]*node[ \t]*\]\]/ }
        in_node && /^[ \t]*name[ \t]*=/ { print_names($0) }
        /^node[ \t]*=[ \t]*\[/ { in_list = 1 }
        in_list { print_names($0) }
        in_list && /\][ \t]*(#.*)?\r?$/ { in_list = 0 }
    ' "$1"
}

# The words of the command that stand before the one that is completed, without redirections, in `words`;
# `to_file` is set where a redirection comes right before it.
_srv6_words() {
    local index word
    words=()
    to_file=
    for ((index = 0; index < COMP_CWORD; index++)); do
        word=${COMP_WORDS[index]}
        if [[ $word == *[\<\>]* ]]; then
            to_file=yes
        elif [[ $to_file ]]; then
            to_file=
        else
            words+=("$word")
        fi
    done
}

# Sets COMPREPLY to the files that a word begins, those of a pattern and the folders alone.
_srv6_files() {
    local pattern=$1 current=$2
    mapfile -t COMPREPLY < <(
        compgen -d -- "$current"
        compgen -f -X "!$pattern" -- "$current" | while IFS= read -r file; do
            [[ -d $file ]] || printf "%s\n" "$file"
        done
    )
    compopt -o filenames 2>/dev/null
}

# Sets COMPREPLY to the names of the nodes of a description that a word begins.
_srv6_node() {
    local net current=$2
    # the file's name as the shell would read it, but for variables and commands
    net=${1//[\\\"\']/}
    [[ ${net:0:2} == \~/ ]] && net=$HOME/${net:2}
    if [[ -f $net && -r $net ]]; then
        mapfile -t COMPREPLY < <(compgen -W "$(_srv6_nodes "$net")" -- "$current")
    fi
}

_srv6() {
    local current=${COMP_WORDS[COMP_CWORD]} words to_file
    COMPREPLY=()
    _srv6_words
    if [[ $to_file ]]; then
        _srv6_files '*' "$current"
        return
    fi
    if ((${#words[@]} == 1)); then
        mapfile -t COMPREPLY < <(compgen -W 'run trace replay compile check walk update show gen' -- "$current")
        return
    fi
    case ${words[1]}:${#words[@]} in
    run:2 | trace:2 | replay:2 | compile:[23] | check:[23] | walk:[23] | update:[234])
        _srv6_files '*.toml' "$current"
        ;;
    replay:3 | check:4)
        _srv6_files '*' "$current"
        ;;
    gen:2)
        mapfile -t COMPREPLY < <(compgen -W "$(echo {2..47})" -- "$current")
        ;;
    gen:3)
        mapfile -t COMPREPLY < <(compgen -W 'net intent sum' -- "$current")
        ;;
    run:3 | trace:3)
        _srv6_node "${words[2]}" "$current"
        ;;
    esac
}

# The options of each tool. Behind `=` stands what an option takes: words, `toml` or `file` for the name of a file,
# or `any` where nothing is completed.
declare -gA _srv6_options=(
    [all-paths]='--count --table --json --dot --most=any'
    [check-certificate]=''
    [conform]='--dut=any --profile=profile --pairs --json --junit=file --keep=file --seed=any --more=any --most=any'
    [draw-walk]='--used --lines=file --new=file --new-lines=file'
    [from-bgp-ls]='--ask=any --keep=file --plan=file --block=any --addresses=any'
    [from-frr]='--addresses=any --block=any --plan=file'
    [from-linux]='--ipv4=file --rules=file --ipv4-rules=file --vrfs=file --sid-table=any --node=any --address=any --source=any --link=any'
    [judge]='--json'
    [largest-inner]='--json'
    [linux-route]='--kernel=any'
    [mesh]='--to-title=any --headend=any --via=any --strict --prefer=need,sids --mode=full,reduced --inner=ipv6,ipv4 --hop-limit=any --max-containers=any --csv --json --since=file --intents=file --jobs=any'
    [name-links]=''
    [packets]='--manifest=file --seed=any --more=any'
    [routes]='--compact --unjudged'
    [srv6-diff]='--replay=toml --net=toml --most=any'
    [to-frr]='--via=any --kernel=any'
    [to-gobgp]='--distinguisher=any --preference=any --name=any --next-hop=any --send=any'
    [to-ios-xr]='--name=any --preference=any --locator=any'
    [to-json]='--kind=report,certificate,err,trace,show,verdict,summary'
    [to-junos]='--name=any'
    [to-linux]='--kernel=any --tun --namespace=any'
    [to-raw]='--keep-numbers --interface=any --direction=in,out --from=any'
    [view]='--at=any --choices=any --new=toml --preferences --plan=toml --most=any --no-fans --title=any'
    [what-if]='--lists=file --sets=toml --only=cable,bundle,node,set --least --fail-on=at-once,after,none --details --json --html --title=any --jobs=any'
    [why-no-list]=''
)
# What stands behind each tool, word by word: `toml`, `file`, `node` (of the description before it), `start` (a node or
# an intent), or `any`.
declare -gA _srv6_arguments=(
    [all-paths]='toml start'
    [check-certificate]='toml toml file'
    [conform]='toml node'
    [draw-walk]='toml file'
    [from-bgp-ls]='file'
    [from-frr]='file'
    [from-linux]='file'
    [judge]='toml toml'
    [largest-inner]='toml toml'
    [linux-route]='toml any any'
    [mesh]='toml toml'
    [name-links]='toml'
    [packets]='toml node'
    [routes]='toml toml'
    [srv6-diff]='file file'
    [to-frr]='toml any any'
    [to-gobgp]='toml any any any'
    [to-ios-xr]='toml any any'
    [to-json]='file'
    [to-junos]='toml any any'
    [to-linux]='toml node'
    [to-raw]='file'
    [view]='file file' # any, as an editor has this name too
    [what-if]='toml toml file file file'
    [why-no-list]='toml toml'
)

# Completes a word of one of these kinds.
_srv6_kind() {
    local kind=$1 net=$2 current=$3 nodes
    case $kind in
    toml) _srv6_files '*.toml' "$current" ;;
    file) _srv6_files '*' "$current" ;;
    node) _srv6_node "$net" "$current" ;;
    start)
        _srv6_node "$net" "$current"
        nodes=("${COMPREPLY[@]}")
        _srv6_files '*.toml' "$current"
        COMPREPLY+=("${nodes[@]}")
        ;;
    profile)
        _srv6_files '*.toml' "$current"
        mapfile -t -O ${#COMPREPLY[@]} COMPREPLY < <(compgen -W 'linux none' -- "$current")
        ;;
    any | '') ;;
    *) mapfile -t COMPREPLY < <(compgen -W "${kind//,/ }" -- "$current") ;;
    esac
}

_srv6_tool() {
    local current=${COMP_WORDS[COMP_CWORD]} words to_file tool options arguments option plain=() taken= word
    COMPREPLY=()
    _srv6_words
    if [[ $to_file ]]; then
        _srv6_files '*' "$current"
        return
    fi
    tool=${words[0]##*/}
    [[ ${_srv6_arguments[$tool]+there} ]] || tool=${tool#srv6-}
    read -ra options <<<"${_srv6_options[$tool]} --help"
    read -ra arguments <<<"${_srv6_arguments[$tool]}"
    for word in "${words[@]:1}"; do
        if [[ $taken ]]; then
            taken=
        elif [[ $word == -* ]]; then
            for option in "${options[@]}"; do
                [[ $option == "$word="* ]] && taken=${option#*=}
            done
        else
            plain+=("$word")
        fi
    done
    if [[ $taken ]]; then
        _srv6_kind "$taken" '' "$current"
    elif [[ $current == -* ]]; then
        mapfile -t COMPREPLY < <(compgen -W "${options[*]%%=*}" -- "$current")
    else
        _srv6_kind "${arguments[${#plain[@]}]:-any}" "${plain[0]:-}" "$current"
    fi
}

complete -F _srv6 srv6 srv6-say
for _srv6_name in "${!_srv6_arguments[@]}"; do
    complete -F _srv6_tool "$_srv6_name" "srv6-${_srv6_name#srv6-}"
done
unset _srv6_name
