#!/bin/sh
# Runs what is asked of a change beside `rt ci` and takes seconds: definitions, homes of lemmas, links, counts, the version, the manual page,
# and the unit tests of the scripts.
#
#     scripts/gate/checks.sh        from anywhere
#
# The status is 1 if one of them found a fault.
. "$(dirname "$0")/../lib/paths.sh"
found=0
ask() {
    if said=$("$@" 2>&1); then
        echo "ok: $*"
    else
        printf '%s\n' "$said" "FAULT: $*"
        found=1
    fi
}
ask scripts/gate/headline.py
ask scripts/gate/homes.py
ask scripts/gate/links.py
ask scripts/gate/measures.py
ask scripts/make/version.py
ask scripts/make/man_page.py --check
ask python3 -m unittest discover scripts/tests
exit $found
