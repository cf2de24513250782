# Completion of mrt in bash: . tools/completion.bash
# It completes forms, files, the ways in which a packet enters and, once a database is named, its router IDs.

# Prints the router IDs of a database's live router-LSAs, of its first MiB. Nothing of the file is printed but numbers.
_mrt_routers() {
    [ -f "$1" ] && head -c 1048576 -- "$1" | od -An -v -tu1 -w1 | awk '
        { byte[NR - 1] = $1 }
        END {
            for (at = 0; at + 20 <= NR; at += size) {
                size = 256 * byte[at + 18] + byte[at + 19]
                if (size < 20) exit
                if (byte[at + 3] != 1 || 256 * (byte[at] % 128) + byte[at + 1] >= 3600) continue
                id = byte[at + 8] "." byte[at + 9] "." byte[at + 10] "." byte[at + 11]
                if (!seen[id]++) print id
            }
        }'
}

# What the words after a form are.
_mrt_kinds() {
    case $1 in
    certify | table | order) echo file profile router ;;
    check | fabric | upgrade | flood) echo file profile file ;;
    trace) echo file profile router router entry router ;;
    proxy) echo file profile router router router ;;
    lfa) echo file router ;;
    esac
}

_mrt() {
    local forms="certify check table trace fabric lfa order proxy upgrade flood survey"
    local word=${COMP_WORDS[COMP_CWORD]} given=("${COMP_WORDS[@]:1:COMP_CWORD-1}") choices="" kinds
    COMPREPLY=()
    if [ "${#given[@]}" -gt 0 ] && [ "${given[0]}" = --look ]; then
        given=("${given[@]:1}")
        [ "${#given[@]}" -gt 0 ] || choices=$forms
    elif [ "${#given[@]}" = 0 ]; then
        choices="$forms help --help --version --look --install --library"
    elif [ "${given[*]}" = help ]; then
        choices="$forms status"
    fi
    if [ -z "$choices" ]; then
        read -ra kinds < <(_mrt_kinds "${given[0]}")
        case ${kinds[${#given[@]} - 1]} in
        router) choices=$(_mrt_routers "${given[1]/#\~/$HOME}") ;;
        entry) choices="blue red repair" ;;
        profile) [ -n "$word" ] || choices=- ;;&
        profile | file)
            compopt -o filenames 2>/dev/null
            mapfile -t COMPREPLY < <(compgen -f -- "$word")
            ;;
        esac
    fi
    [ -z "$choices" ] || mapfile -t -O "${#COMPREPLY[@]}" COMPREPLY < <(compgen -W "$choices" -- "$word")
}

complete -F _mrt mrt ./mrt
