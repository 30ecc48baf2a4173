# Completion of hosed for bash: commands, tariffs, and names of files and endpoints.
# To try it: source tools/hosed.bash

# The names of the nodes of a topology in text or JSON, each with the `:` before its rate.
_hosed_nodes() {
    if [[ $1 == *.json ]]; then
        tr -d '\n' <"$1" | sed -n 's/.*"nodes": *\[\([^]]*\)\].*/\1/p' | tr ',' '\n' |
            sed -n 's/.*"\([a-z0-9-]*\)".*/\1:/p'
    else
        sed -n '/^ *end *$/q; s/^ *node  *\([a-z0-9-]*\) *$/\1:/p' "$1"
    fi 2>/dev/null
}

# Adds to COMPREPLY those of some words that begin with what is typed.
_hosed_words() {
    local IFS=$' \n'
    COMPREPLY+=($(compgen -W "$1" -- "$typed"))
}

_hosed_files() {
    compopt -o filenames 2>/dev/null
    local IFS=$'\n'
    COMPREPLY+=($(compgen -f -- "$typed"))
}

_hosed() {
    local commands="run audit host serve prove check price ship follow move cut gen"
    local with_tariff=" run audit host serve prove check ship follow move cut "
    local typed verb place words=() line=$COMP_LINE
    COMPREPLY=()
    # Bash parts words at `:`, so the words up to the cursor are read anew.
    read -r -a words <<<"${line:0:COMP_POINT}"
    [[ ${line:0:COMP_POINT} == *' ' ]] && words+=("")
    typed=${words[-1]} verb=${words[1]-} place=$((${#words[@]} - 1))
    if ((place == 1)); then
        _hosed_words "$commands --help --version"
        return
    fi
    if [[ $with_tariff == *" $verb "* ]]; then
        if ((place == 2)); then
            _hosed_words --tariff
        elif [[ ${words[2]} == --tariff ]] && ((place == 3)); then
            _hosed_words "flat hops long"
            return
        fi
        [[ ${words[2]} == --tariff ]] && ((place > 2)) && place=$((place - 2))
    fi
    if [[ $verb == move ]]; then
        ((place == 2)) && _hosed_words --live
        [[ ${words[${#words[@]} - place + 1]} == --live ]] && ((place > 2)) && place=$((place - 1))
    fi
    if [[ $verb == host ]]; then
        # Options stand in one order: `next` are those that may come behind the last one.
        local option next="--operator --quiet --standby"
        while ((place > 2)); do
            option=${words[${#words[@]} - place + 1]}
            case $option in
                --operator) next="--quiet --standby" ;;
                --quiet) next=--standby ;;
                --standby) next="--standby-seconds --standby-or-stop" ;;
                --standby-seconds) next=--standby-or-stop ;;
                --standby-or-stop) next= ;;
                *) break ;;
            esac
            place=$((place - 1))
            if [[ $option == --operator || $option == --standby || $option == --standby-seconds ]]; then
                if ((place == 2)); then
                    [[ $option == --standby-seconds ]] || _hosed_files
                    return
                fi
                place=$((place - 1))
            fi
        done
        ((place == 2)) && _hosed_words "$next"
    fi
    [[ $typed == -* ]] && return
    case $verb:$place in
        run:2 | audit:[23] | host:* | serve:[23] | prove:2 | check:2 | price:2 | ship:[23] | follow:[23] | \
            move:[2-5] | cut:[235])
            _hosed_files
            ;;
        prove:*)
            _hosed_words "$(_hosed_nodes "${words[${#words[@]} - place + 1]}")"
            compopt -o nospace 2>/dev/null
            ;;
    esac
    return 0
}

complete -F _hosed hosed ./hosed
