# Bash's completion of tradecli: its subcommands and options, follow rules, modes and value types.

_tradecli_commands='query export withdraw describe link links types addtype help'
_tradecli_rules='local_only if_no_local always'
_tradecli_modes='normal readonly mandatory mandatory_readonly'
_tradecli_items='short long longlong ushort ulong ulonglong octet char boolean string'

# Sets `words` to those up to the cursor as the program gets them: bash cuts some at `=` and `:` too.
_tradecli_words() {
    local it bare rest=$COMP_LINE
    words=()
    for it in "${COMP_WORDS[@]:0:COMP_CWORD+1}"; do
        bare=${rest#"${rest%%[![:blank:]]*}"}
        if [[ $bare != "$rest" || ${#words[@]} -eq 0 ]]; then
            words+=("$it")
        else
            words[-1]+=$it
        fi
        rest=${bare#"$it"}
    done
}

# Offers those of these words with which the one at the cursor can go on, without what bash keeps of it. Those that end
# in `=` or `:` go on.
_tradecli_offer() {
    local it all kept=${cur%"${cur##*[=:]}"}
    [[ $COMP_WORDBREAKS == *:* ]] || kept=
    read -ra all <<< "$1"
    for it in "${all[@]}"; do
        [[ $it != "$cur"* ]] || COMPREPLY+=("${it#"$kept"}")
    done
    if [[ ${COMPREPLY[0]} == *[=:] ]]; then
        compopt -o nospace 2> /dev/null
    fi
}

# Offers value types behind a front of the word, with this behind each.
_tradecli_types() {
    local it types=
    for it in $_tradecli_items; do
        types+=" $1$it$2 $1seq:$it$2"
    done
    _tradecli_offer "$types"
}

_tradecli_query() {
    case ${words[-2]} in
    --follow) _tradecli_offer "$_tradecli_rules" ;;
    --how-many | --hops | --id) ;;
    *) [[ $cur != -* ]] || _tradecli_offer '--how-many --hops --follow --id --exact -h --help' ;;
    esac
}

# An item of addtype.
_tradecli_item() {
    local it modes=
    case $cur in
    prop=*:*:*) _tradecli_types "${cur%"${cur#prop=*:*:}"}" '' ;;
    prop=*:*)
        for it in $_tradecli_modes; do
            modes+=" ${cur%"${cur#prop=*:}"}$it:"
        done
        _tradecli_offer "$modes"
        ;;
    *) _tradecli_offer 'super= prop=' ;;
    esac
}

_tradecli() {
    local words cur
    COMPREPLY=()
    _tradecli_words
    cur=${words[-1]}
    if [[ ${#words[@]} -le 2 ]]; then
        _tradecli_offer "$_tradecli_commands -h --help"
        return
    fi
    case ${words[1]}:${#words[@]}:$cur in
    query:*) _tradecli_query ;;
    help:3:*) _tradecli_offer "$_tradecli_commands" ;;
    *:3:-*) _tradecli_offer '-h --help' ;;
    export:[345]:*) ;;
    export:*=*) _tradecli_types "${cur%%=*}=" : ;;
    link:[67]:*) _tradecli_offer "$_tradecli_rules" ;;
    addtype:[345]:*) ;;
    addtype:*) _tradecli_item ;;
    esac
}

complete -F _tradecli tradecli
