#!/bin/sh
# Runs the program @NAME@ of this release: ./@NAME@ [WORDS] < INPUT. It was proved where it was made; the file PROVED says by what. Standard
# output and the exit code are the program's own. Where it makes the data of a page, they are put into page.html. Where the command words are
# refused, its options are written to standard error. If the variable DENOVO_REQUIRE is "proved", the program must have the checksum that
# PROVED says of it; any other value is refused. The exit code 10 is the launcher's.
here=$0
data=""
child=""

say() { printf '@NAME@: %s\n' "$*" >&2; }

stop() {
    say "$*"
    exit 10
}

if [ -L "$here" ]; then
    here=$(readlink -f -- "$here")
    case $here in /*) ;; *) stop "readlink doesn't say where the link $0 leads" ;; esac
fi
case $here in /*) ;; *) here=./$here ;; esac
here=${here%/*}
program=$here/libexec/@NAME@

# Whether the program has the checksum that PROVED says of it. What fails on the way means that it hasn't.
is_proved() {
    sum=$(sha256sum < "$program") || return 1
    sum=${sum%"  -"}
    case $sum in *[!0-9a-f]*) return 1 ;; esac
    [ "${#sum}" = 64 ] || return 1
    while read -r word told path rest; do
        if [ "$word $told $path" = "sha256 $sum libexec/@NAME@" ]; then return 0; fi
    done < "$here/PROVED"
    return 1
} 2> /dev/null

# Ends the program and removes the file of this call.
end() {
    if [ -n "$child" ]; then kill -TERM "$child" 2> /dev/null; fi
    if [ -n "$data" ]; then rm -f -- "$data"; fi
}

# Runs the program beside the shell, so that what ends the shell ends the program too. The shell would take its standard input away.
run() {
    if { { :; } 3<&0; } 2> /dev/null; then { "$program" "$@" <&3 3<&- & } 3<&0; else "$program" "$@" <&- & fi
    child=$!
    wait "$child"
    code=$?
    child=""
}

# Whether standard input is a file whose lines end in carriage returns alone. They are one line to the programs.
has_bare_returns() {
    [ -f /dev/stdin ] || return 1
    return_sign=$(printf '\r')
    text=$(head -c 1100 /dev/stdin && echo .) || return 1
    case $text in
    *"
"*) return 1 ;;
    *"$return_sign"*) return 0 ;;
    *) return 1 ;;
    esac
} 2> /dev/null

makes_page() {
    before=""
    for word in "$@"; do
        case "@NAME@ $before $word" in "view --mode page" | "view "*" --mode=page") return 0 ;; esac
        before=$word
    done
    return 1
}

# The page with the data that the program made; the mark stands on a line of its own.
write_page() { sed '/@@RUN@@/,$d' "$here/share/page.html" && cat -- "$data" && echo && sed '1,/@@RUN@@/d' "$here/share/page.html"; } 2> /dev/null

# Which of its inputs explain can't read, by its last word.
say_unread() {
    for text in "$@"; do :; done
    if [ ! -e "$text" ]; then
        say "$text: there is no such file"
    elif [ -d "$text" ]; then
        say "$text is a folder, and the text is to be a file"
    elif [ ! -r "$text" ]; then
        say "$text can't be read"
    else
        say "standard input can't be read"
    fi
}

# What isn't UTF-8, where the runtime can't give the words: the path of the program is the first of them.
say_unreadable() {
    case "$*" in
    *[!\ -~]*) say "the command words can't be read: are they UTF-8?" ;;
    *) say "the path $program can't be read: is it UTF-8?" ;;
    esac
}

case ${DENOVO_REQUIRE-any} in
any) ;;
proved) is_proved || stop "DENOVO_REQUIRE asks for the proved program, and libexec/@NAME@ isn't shown to have the checksum that PROVED says of it" ;;
*) stop "DENOVO_REQUIRE is '$DENOVO_REQUIRE', and its one value is 'proved'" ;;
esac
[ -x "$program" ] || stop "there is no program $program"
trap end EXIT
trap 'exit 129' HUP
trap 'exit 130' INT
trap 'exit 143' TERM
if makes_page "$@"; then
    [ -r "$here/share/page.html" ] || stop "there is no $here/share/page.html"
    data=$(mktemp 2> /dev/null) && [ -w "$data" ] || stop "no temporary file can be made in ${TMPDIR:-/tmp}"
    run "$@" > "$data"
    if [ "$code" = 0 ]; then write_page || code=7; else cat -- "$data" || code=7; fi
else
    run "$@"
fi
case $code in
0 | 2) if has_bare_returns; then say "standard input has carriage returns and no newline, so it is one line: a line ends with a newline"; fi ;;
esac
case $code in
1) cat -- "$here/share/help/@NAME@.txt" >&2 ;;
2 | 3 | 4 | 5) if [ "@NAME@" = denovo ]; then say "to see where in the text, and what would be right:  ./denovo${*:+ $*} < TEXT | ./explain TEXT"; fi ;;
6) if [ "@NAME@" = explain ]; then say_unread "$@"; else say "standard input failed"; fi ;;
7) say "standard output failed" ;;
8) say "out of memory" ;;
9) LC_ALL=C say_unreadable "$@" ;;
esac
exit "$code"
