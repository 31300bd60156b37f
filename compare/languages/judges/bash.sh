#!/usr/bin/env bash
# The judge of Bash: its arithmetic, whose errors show the wrong token. A text that begins with no digit is a name, or has an operator,
# in front of which a token ends.
LC_ALL=C

judge() {
    local front=${1%%[-+*/%<>=&|^?:,()!~ ]*} error it
    [[ $front == [0-9]* ]] || return 1
    if ! error=$(let "it=$front" 1 2>&1); then
        error=${error#*(error token is \"}
        front=${front%"${error%\")}"}
    fi
    [[ $front ]] && let "it=$front" 1 2> /dev/null && echo "${#front} $it"
}

while IFS= read -r text; do judge "$text" || echo -; done
