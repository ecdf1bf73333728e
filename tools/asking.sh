# shellcheck shell=bash
# Sourced, after tools/machine.sh, by the tools that put typed words to a program: a word as a line, and what is said of years
# on standard error.

say() { echo "${0##*/}: $*" >&2; }

# A word as a line of the program's input. Six characters are refused like any more; a line feed would begin another line.
as_line() {
    local word=${1:0:6}
    printf '%s\n' "${word//$'\n'/ }"
}

# The Hebrew year that begins in a civil year: New Year of year H falls in the civil year H - 3761.
begun_in() { echo $((10#$1 + 3761)); }

bad_year() { say "${1@Q} is refused: a Hebrew year is 1 to 9999, in figures alone"; }

# A number within 500 years of the civil year is likely to be meant for one.
hint() {
    local away
    [[ $1 =~ ^[0-9]{1,5}$ ]] || return 0
    away=$((10#$1 - $(date +%Y)))
    [ "${away#-}" -le 500 ] || return 0
    say "$1 is taken for a Hebrew year; the Hebrew year that begins in the civil year $1 is $(begun_in "$1")"
}
