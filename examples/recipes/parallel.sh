#!/bin/sh
# The same by GNU parallel: a job for each processor of this machine, or on the machines of HOSTS, each of CHUNK logs (1).
#
#     parallel.sh LIST OUT
#     parallel.sh LIST OUT 16/node1,16/node2 CHUNK
#
# The hosts share this folder, and the program is on the PATH of each. A dead host gets no job, and the jobs of one that dies
# go to others.
set -u
FARM=$(CDPATH='' cd "$(dirname "$0")" && pwd) || exit 4
"$FARM/number.sh" CHUNK "${4:-1}" || exit
LIST=$1 OUT=$2 hosts=
# (--filter-hosts asks five things of each host side by side, and may take the answers for a fault of its own.)
for host in $(printf '%s\n' "${3:-}" | tr , ' '); do
    case ${host##*/} in
        :) ;;
        *) ssh -n -o BatchMode=yes -o ConnectTimeout=10 "${host##*/}" true || continue ;;
    esac
    hosts=${hosts:+$hosts,}$host
done
if [ -n "${3:-}" ] && [ -z "$hosts" ]; then
    printf 'parallel.sh: no host answers\n' >&2
    exit 4
fi
export FARM LIST OUT
# shellcheck disable=SC2016
sed -n = "$LIST" | parallel -n "${4:-1}" --env FARM --env LIST --env OUT \
    ${hosts:+--sshlogin "$hosts" --retries 3 --workdir "$PWD"} '"$FARM/map.sh" "$LIST" "$OUT"'
exec "$FARM/report.sh" "$LIST" "$OUT"
