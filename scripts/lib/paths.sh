# shellcheck shell=sh disable=SC2034
# Read by the shell scripts: prints their first lines for --help, goes to the top of the repository, names the built
# program, and makes a signal an exit, so that what a script does at its exit is done then, too.
case ${1:-} in
--help | -h)
    sed -n '2,/^[^#]/s/^# \{0,1\}//p' "$0"
    exit 0
    ;;
esac
trap 'exit 129' HUP
trap 'exit 130' INT
trap 'exit 143' TERM
cd "$(dirname "$0")/../.." || exit 1
top=$PWD
program=$top/crates/qconvex/out/qconvex
