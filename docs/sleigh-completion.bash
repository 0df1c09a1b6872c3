# Completion for bash: source this file. In zsh: autoload -U bashcompinit && bashcompinit, and then source it.

# The options of a command.
_sleigh_options() {
    case "$1" in
    check) echo "--packed --explain" ;;
    gaps) echo "--packed" ;;
    list | pcode) echo "--packed --base --hex" ;;
    run) echo "--packed --base --hex --steps" ;;
    asm) echo "--packed --base --actions --lines" ;;
    esac
}

_sleigh() {
    local current="${COMP_WORDS[COMP_CWORD]}" previous="${COMP_WORDS[COMP_CWORD - 1]}" command="${COMP_WORDS[1]}" word IFS=$' \t\n'
    COMPREPLY=()
    if [ "$COMP_CWORD" -eq 1 ]; then
        mapfile -t COMPREPLY < <(compgen -W "check list pcode run gaps pack gen asm" -- "$current")
        return
    fi
    case "$command:$previous" in
    gen:* | *:--base | *:--steps) return ;;
    esac
    local options=" $(_sleigh_options "$command") " is_open=yes names=0 before=
    for word in "${COMP_WORDS[@]:2:COMP_CWORD-2}"; do
        case "$is_open:$before:$word" in
        yes:--base:* | yes:--steps:*) ;;
        yes:*:--) is_open=no ;;
        yes:*:--*) options="${options/ $word / }" ;;
        *) names=$((names + 1)) ;;
        esac
        before="$word"
    done
    if [ "$is_open" = yes ] && [[ $current == -* ]]; then
        mapfile -t COMPREPLY < <(compgen -W "$options" -- "$current")
        return
    fi
    compopt -o filenames 2>/dev/null
    if [ "$names" -eq 0 ] && [[ " ${COMP_WORDS[*]} " == *" --packed "* ]]; then
        mapfile -t COMPREPLY < <(compgen -f -- "$current")
    elif [ "$names" -eq 0 ]; then
        mapfile -t COMPREPLY < <(compgen -f -X '!*.slaspec' -- "$current"; compgen -d -- "$current")
    elif [[ " list pcode run " == *" $command "* || "$command ${COMP_WORDS[*]} " == "asm "*" --lines "* ]]; then
        mapfile -t COMPREPLY < <(compgen -f -- "$current")
    fi
}

complete -F _sleigh sleigh
