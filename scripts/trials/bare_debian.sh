#!/bin/sh
# Runs the trial `users` in a new Debian that has nothing but what debootstrap and the packages below put there.
#
#     scripts/trials/bare_debian.sh FOLDER [WORD..]      as root, from anywhere; the words go to users.py
#
# FOLDER must not exist, and stays. SUITE is bookworm if it is not set. Programs and libraries are taken as they were built.
. "$(dirname "$0")/../lib/paths.sh"
set -e
folder=${1:?name a new folder}
shift
[ ! -e "$folder" ]
debootstrap --variant=minbase "${SUITE:-bookworm}" "$folder"
mkdir "$folder/qconvex"
tar -c --exclude=./.git --exclude=./build --exclude=./crates/*/out/incremental --exclude=./crates/*/out/rlib . | tar -x -C "$folder/qconvex"
chroot "$folder" apt-get install -y --no-install-recommends g++ make cmake qhull-bin normaliz lrslib python3-scipy python3-pip python3-setuptools python3-wheel
chroot "$folder" /qconvex/scripts/trials/users.py "$@"
