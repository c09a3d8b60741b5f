#!/usr/bin/env bash
# Writes what bash completes for the program, made from its help texts, to standard output: subcommands, options, and files.
#
#   tools/completions.sh PROGRAM
set -eu
export LC_ALL=C
program=$1

# options_of [VALUE]: the options of the help text on standard input; with a VALUE those alone that take it.
options_of() {
    sed -n '/^Options:$/,/^$/p' | sed -n "s/^  \(    \|-., \)\(--[a-z-]*\)${1:+ <$1>}.*/\2/p" | one_line
}

one_line() {
    tr '\n' ' ' | sed 's/ $//'
}

help=$("$program" help)
commands=$(sed -n '/^Commands:$/,/^$/s/^  \([a-z]*\) .*/\1/p' <<< "$help" | one_line)
cat << END
# Made by tools/completions.sh of Squall.
_squall() {
    local word=\${COMP_WORDS[COMP_CWORD]} before=\${COMP_WORDS[COMP_CWORD - 1]} command='' words='' numbers='' files='' takes=''
    if [ "\$COMP_CWORD" -gt 1 ]; then command=\${COMP_WORDS[1]}; fi
    case \$command in
        '') words='$commands $(options_of <<< "$help")' ;;
        help) words='$commands' ;;
END
for command in $commands; do
    if [ "$command" = help ]; then continue; fi
    text=$("$program" help "$command")
    cat << END
        $command)
            words='$(options_of <<< "$text")'
            numbers='$(options_of N <<< "$text")'
            files='$(options_of FILE <<< "$text")'
            takes='$(sed -n '/^Arguments:$/,/^$/s/^  .\([A-Z]*\).*/\1/p' <<< "$text")'
            ;;
END
done
cat << 'END'
    esac
    COMPREPLY=()
    case " $numbers " in *" $before "*) return ;; esac
    case " $files " in *" $before "*) takes=FILE ;; esac
    case $takes,$word in
        FILE,[!-]* | FILE,) compopt -o default ;;
        DIR,[!-]* | DIR,) compopt -o dirnames ;;
        *,-* | ,*) mapfile -t COMPREPLY < <(compgen -W "$words" -- "$word") ;;
    esac
}
complete -F _squall squall
END
