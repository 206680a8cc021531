# Completion of ankid for bash: `. completion/ankid.bash`. Made by tools/make_pages.py.
_ankid() {
    local word=${COMP_WORDS[COMP_CWORD]} before=${COMP_WORDS[COMP_CWORD - 1]} given=" ${COMP_WORDS[*]:1:COMP_CWORD - 1} " option left=
    COMPREPLY=()
    case ${COMP_WORDS[1]} in
    --*) ;;
    *)
        if [ "$COMP_CWORD" -gt 1 ]; then
            [ "${COMP_WORDS[1]}" = new-account ] && [ "$COMP_CWORD" -eq 3 ] && COMPREPLY=($(compgen -f -- "$word"))
            return
        fi
        ;;
    esac
    case $before in
    --accounts)
        COMPREPLY=($(compgen -f -- "$word"))
        return
        ;;
    --listen | --turns | : | --program) return ;;
    esac
    [ "$COMP_CWORD" -eq 1 ] && left="new-account --program"
    for option in --listen --accounts --turns; do [[ $given == *" $option "* ]] || left="$left $option"; done
    COMPREPLY=($(compgen -W "$left" -- "$word"))
}
complete -o filenames -F _ankid ankid bin/ankid ./ankid
