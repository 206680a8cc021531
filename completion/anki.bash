# Completion of anki for bash: `. completion/anki.bash`. Made by tools/make_pages.py.
_anki() {
    local -a given=("${COMP_WORDS[@]:0:COMP_CWORD + 1}")
    COMPREPLY=()
    # Bash parts words at a colon; the name of a journal is one.
    if [ "${given[1]}" = journal ] && [ "${given[2]}" = : ]; then
        if [ "${#given[@]}" -le 4 ]; then
            COMPREPLY=($(compgen -f -- "${given[3]}"))
            return
        fi
        given=("${given[0]}" "journal:${given[3]}" "${given[@]:4}")
    fi
    local place=$((${#given[@]} - 1)) first=${given[1]} second=${given[2]}
    local word=${given[place]}
    if [ "$place" -eq 1 ]; then
        COMPREPLY=($(compgen -W "backup restore doctor show help --help --version --program" -- "$word") $(compgen -f -- "$word"))
        return
    fi
    # If the second word is - or host:port, all words go to the program.
    if [ "$place" -ge 3 ] && { [ "$second" = - ] || [[ $second == *:* ]] || [[ ${given[3]} == : ]]; }; then
        [ "$place" -eq 3 ] && COMPREPLY=($(compgen -W "init desk sync upload download import export make lab" -- "$word"))
        return
    fi
    case $first in
    backup | restore) [ "$place" -le 3 ] && COMPREPLY=($(compgen -f -- "$word")) ;;
    doctor) [ "$place" -eq 2 ] && COMPREPLY=($(compgen -f -- "$word")) ;;
    show)
        [ "$place" -eq 2 ] && COMPREPLY=($(compgen -f -- "$word"))
        [ "$place" -eq 3 ] && COMPREPLY=($(compgen -W "decks types options notes" -- "$word"))
        ;;
    help) [ "$place" -eq 2 ] && COMPREPLY=($(compgen -W "desk lab import sync answers" -- "$word")) ;;
    --*) ;;
    *) [ "$place" -eq 2 ] && COMPREPLY=($(compgen -W "-" -- "$word")) ;;
    esac
}
complete -o filenames -F _anki anki bin/anki ./anki

# The verbs of a desk's and of a lab's lines, for a shell that feeds them: `anki_verbs desk`, `anki_verbs lab`.
anki_verbs() {
    case $1 in
    desk) compgen -W "note fields tags delete deck rename drop move filter build empty adopt options unoptions type retype untype spread answer next counts find page mute suspend unsuspend bury flag undo check" -- "$2" ;;
    lab) compgen -W "clock device shift review do sync upload download lose repeat cross replay resend break show count requests" -- "$2" ;;
    esac
}
