"""The scripts of completion/ for bash and zsh, whose words are those of the tables of docs/profile/."""
from tools import helps

TOPICS = ("desk", "lab", "import", "sync", "answers")


def commands():
    """The commands of the program: the third word."""
    return [entry.forms[0].split(" ")[3] for entry in helps.commands() if entry.example]


def words():
    """The words of bin/anki: the first word, in place of a file."""
    return helps.verbs_of(helps.script_words())


def tables():
    return list(dict.fromkeys(form.split(" ")[2] for entry in helps.script_words() for form in entry.forms if form.startswith("show ")))


def server_words():
    """The words of bin/ankid that begin no server: each stands first."""
    return [entry.forms[0].split(" ")[1] for entry in helps.server_words() if entry.forms[0].split(" ")[1] not in server_options()]


def server_options():
    """The words of a server, each with what stands behind it."""
    return dict(entry.forms[0].split(" ") for entry in helps.server_options())


def of_server():
    options = server_options()
    return {
        "SERVER": " ".join(server_words()), "OPTIONS": " ".join(options),
        "FILED": " | ".join(it for it in options if options[it] == "FILE"), "VALUED": " | ".join(it for it in options if options[it] != "FILE"),
    }


def scripts():
    fill = {
        "COMMANDS": " ".join(commands()), "WORDS": " ".join(words()), "TABLES": " ".join(tables()), "TOPICS": " ".join(TOPICS),
        "DESK": " ".join(helps.verbs_of(helps.desk_lines())), "LAB": " ".join(helps.verbs_of(helps.lab_lines())),
    }
    fill.update(of_server())
    made = {"completion/anki.bash": BASH, "completion/_anki": ZSH, "completion/ankid.bash": SERVER_BASH, "completion/_ankid": SERVER_ZSH}
    for name, text in made.items():
        for word, value in fill.items():
            text = text.replace("@%s@" % word, value)
        made[name] = text
    return made


BASH = r"""# Completion of anki for bash: `. completion/anki.bash`. Made by tools/make_pages.py.
_anki() {
    local -a given=("${COMP_WORDS[@]:0:COMP_CWORD + 1}")
    COMPREPLY=()
    # Bash parts words at a colon; the name of a journal is one.
    if [ "${given[1]}" = journal ] && [ "${given[2]}" = : ]; then
        if [ "${#given[@]}" -le 4 ]; then
            COMPREPLY=($(compgen -f -- "${given[3]}"))
            return
        fi
        given=("${given[0]}" "journal:${given[3]}" "${given[@]:4}")
    fi
    local place=$((${#given[@]} - 1)) first=${given[1]} second=${given[2]}
    local word=${given[place]}
    if [ "$place" -eq 1 ]; then
        COMPREPLY=($(compgen -W "@WORDS@" -- "$word") $(compgen -f -- "$word"))
        return
    fi
    # If the second word is - or host:port, all words go to the program.
    if [ "$place" -ge 3 ] && { [ "$second" = - ] || [[ $second == *:* ]] || [[ ${given[3]} == : ]]; }; then
        [ "$place" -eq 3 ] && COMPREPLY=($(compgen -W "@COMMANDS@" -- "$word"))
        return
    fi
    case $first in
    backup | restore) [ "$place" -le 3 ] && COMPREPLY=($(compgen -f -- "$word")) ;;
    doctor) [ "$place" -eq 2 ] && COMPREPLY=($(compgen -f -- "$word")) ;;
    show)
        [ "$place" -eq 2 ] && COMPREPLY=($(compgen -f -- "$word"))
        [ "$place" -eq 3 ] && COMPREPLY=($(compgen -W "@TABLES@" -- "$word"))
        ;;
    help) [ "$place" -eq 2 ] && COMPREPLY=($(compgen -W "@TOPICS@" -- "$word")) ;;
    --*) ;;
    *) [ "$place" -eq 2 ] && COMPREPLY=($(compgen -W "-" -- "$word")) ;;
    esac
}
complete -o filenames -F _anki anki bin/anki ./anki

# The verbs of a desk's and of a lab's lines, for a shell that feeds them: `anki_verbs desk`, `anki_verbs lab`.
anki_verbs() {
    case $1 in
    desk) compgen -W "@DESK@" -- "$2" ;;
    lab) compgen -W "@LAB@" -- "$2" ;;
    esac
}
"""

ZSH = r"""#compdef anki
# Completion of anki for zsh: put its folder into fpath. Made by tools/make_pages.py.
_anki() {
    local -a commands script tables topics
    commands=(@COMMANDS@)
    script=(@WORDS@)
    tables=(@TABLES@)
    topics=(@TOPICS@)
    if (( CURRENT == 2 )); then
        # Behind `journal:` stands the path of a journal.
        if [[ $words[2] == journal:* ]]; then
            compset -P journal:
            _files
            return
        fi
        compadd -a script
        _files
        return
    fi
    # If the second word is - or host:port, all words go to the program.
    if (( CURRENT >= 4 )) && [[ $words[3] == - || $words[3] == *:* ]]; then
        (( CURRENT == 4 )) && compadd -a commands
        return
    fi
    case $words[2] in
    (backup|restore) (( CURRENT <= 4 )) && _files ;;
    (doctor) (( CURRENT == 3 )) && _files ;;
    (show)
        if (( CURRENT == 3 )); then _files; elif (( CURRENT == 4 )); then compadd -a tables; fi
        ;;
    (help) (( CURRENT == 3 )) && compadd -a topics ;;
    (--*) ;;
    (*) (( CURRENT == 3 )) && compadd -- - ;;
    esac
}
_anki "$@"
"""

SERVER_BASH = r"""# Completion of ankid for bash: `. completion/ankid.bash`. Made by tools/make_pages.py.
_ankid() {
    local word=${COMP_WORDS[COMP_CWORD]} before=${COMP_WORDS[COMP_CWORD - 1]} given=" ${COMP_WORDS[*]:1:COMP_CWORD - 1} " option left=
    COMPREPLY=()
    case ${COMP_WORDS[1]} in
    --*) ;;
    *)
        if [ "$COMP_CWORD" -gt 1 ]; then
            [ "${COMP_WORDS[1]}" = new-account ] && [ "$COMP_CWORD" -eq 3 ] && COMPREPLY=($(compgen -f -- "$word"))
            return
        fi
        ;;
    esac
    case $before in
    @FILED@)
        COMPREPLY=($(compgen -f -- "$word"))
        return
        ;;
    @VALUED@ | : | --program) return ;;
    esac
    [ "$COMP_CWORD" -eq 1 ] && left="@SERVER@"
    for option in @OPTIONS@; do [[ $given == *" $option "* ]] || left="$left $option"; done
    COMPREPLY=($(compgen -W "$left" -- "$word"))
}
complete -o filenames -F _ankid ankid bin/ankid ./ankid
"""

SERVER_ZSH = r"""#compdef ankid
# Completion of ankid for zsh: put its folder into fpath. Made by tools/make_pages.py.
_ankid() {
    local -a script options given left
    script=(@SERVER@)
    options=(@OPTIONS@)
    given=(${words[1,CURRENT-1]})
    left=(${options:|given})
    if (( CURRENT == 2 )); then
        compadd -a script
        compadd -a left
        return
    fi
    if [[ $words[2] != --* ]]; then
        [[ $words[2] == new-account ]] && (( CURRENT == 4 )) && _files
        return
    fi
    case $words[CURRENT-1] in
    (@FILED@) _files ;;
    (@VALUED@ | --program) ;;
    (*) compadd -a left ;;
    esac
}
_ankid "$@"
"""
