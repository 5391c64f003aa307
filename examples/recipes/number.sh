#!/bin/sh
# Ends with 0 if this word of a recipe is a number from LEAST (1) up, and else with 2 and a line that tells it.
#
#     number.sh NAME WORD [LEAST]
case $2 in
    '' | 0* | *[!0-9]* | ??????????*) ;;
    *) [ "$2" -lt "${3:-1}" ] || exit 0 ;;
esac
printf 'number.sh: %s is %s: not a number from %s up\n' "$1" "$2" "${3:-1}" >&2
exit 2
