# Completion of bash for ./bitml and its neighbours: commands first, then files. The commands are those of help.txt.
# Use: source tools/completion.bash

_bitml_list=$(dirname "$(readlink -f "${BASH_SOURCE[0]}")")/help.txt

# What may come behind the given words, a line each: the next word of each form in help that begins with the first of them, or with the
# first two for a deal, whatever is between.
_bitml_next() { # WORD..
    sed -nE '/^  [a-z-]/ { s/^  //; s/  .*//; p }' "$_bitml_list" | awk -v given="$*" '
        { n = split(given, word, " "); fixed = word[1] == "deal" ? 2 : 1
          for (i = 1; i <= n && i <= fixed; i++) if ($i != word[i]) next
          place = n + 1
          if (place >= NF && $NF ~ /^[.]/) place = NF - 1
          gsub(/[][]/, "", $place)
          if ($place != "") print $place }' | sort -u
}

_bitml() {
    local word=${COMP_WORDS[COMP_CWORD]} words=("${COMP_WORDS[@]:1:COMP_CWORD-1}") program next choices=()
    program=$(basename "${COMP_WORDS[0]}")
    [ "${words[0]-}" != --unproved ] || words=("${words[@]:1}")
    [ "$program" = bitml ] || words=("${program#bitml_}" ${words[@]+"${words[@]}"})
    COMPREPLY=()
    while IFS= read -r next; do
        case $next in
        WHICH) choices+=(init r.0) ;;
        COMMAND) mapfile -t -O ${#choices[@]} choices < <(_bitml_next) ;;
        NUMBER | SIZE | PARTY) ;;
        [A-Z]*)
            compopt -o filenames 2>/dev/null
            mapfile -t -O ${#COMPREPLY[@]} COMPREPLY < <(compgen -f -- "$word")
            ;;
        *) choices+=("$next") ;;
        esac
    done < <(_bitml_next ${words[@]+"${words[@]}"})
    mapfile -t -O ${#COMPREPLY[@]} COMPREPLY < <(compgen -W "${choices[*]-}" -- "$word")
}
complete -F _bitml bitml ./bitml bitml_draw ./bitml_draw bitml_next ./bitml_next bitml_deal ./bitml_deal
