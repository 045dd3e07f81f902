"""llinosfar completion bash: a script that completes words."""
from desk import options, streams
from desk.status import ENDED

SCRIPT = """\
# Completes the words of llinosfar: commands first, then options and files.
_llinosfar() {
    local word="${COMP_WORDS[COMP_CWORD]}" command="${COMP_WORDS[1]}" words=''
    COMPREPLY=()
    if [ "$COMP_CWORD" -eq 1 ]; then
        words='replay make list show pack build agree completion help --help --version'
    else
        case "$command" in
            replay) words='-o -k -f --budget --json --plain --help' ;;
            make | pack) words='-o -f --help' ;;
            completion) words='bash --help' ;;
            help) words='replay make list show pack build agree completion' ;;
            *) words='--help' ;;
        esac
    fi
    if [ "$COMP_CWORD" -eq 1 ] || [ "$command" = completion ] || [ "$command" = help ] || [ "${word:0:1}" = - ]; then
        mapfile -t COMPREPLY < <(compgen -W "$words" -- "$word")
    else
        mapfile -t COMPREPLY < <(compgen -f -- "$word")
    fi
}
complete -o filenames -F _llinosfar llinosfar
"""


def completion(words):
    """Prints the script for the shell that the words name."""
    shell = options.parse('completion', words).only('bash')
    if shell != 'bash':
        raise options.wrong('completion', f'expected bash, and found {shell}')
    streams.put(SCRIPT.encode('ascii'))
    return ENDED
