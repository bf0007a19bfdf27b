#!/bin/sh
# Reads lines of points, a point a line and no header, and writes those of the extreme points in their order, for job
# runners that cut a set into parts: of what all parts leave, put together in their order, `off` is that of the whole.
#
#     scripts/tools/extremes_of_part.sh < part > extremes
#
# The status is 0 only if each line was written. QCONVEX is the program, if it is not found as qconvex.
set -eu
case ${1:-} in
--help | -h)
    sed -n '2,/^[^#]/s/^# \{0,1\}//p' "$0"
    exit 0
    ;;
esac
trap 'exit 129' HUP
trap 'exit 130' INT
trap 'exit 143' TERM
part=$(mktemp)
trap 'rm -f "$part"' EXIT
cat > "$part"
{ echo 3; wc -l < "$part"; cat "$part"; } | "${QCONVEX:-qconvex}" off |
    awk 'NR == 2 { last = $1 + 2 } NR > 2 && NR <= last { print } END { exit !(last && NR >= last) }'
