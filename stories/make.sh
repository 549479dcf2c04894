#!/usr/bin/env bash
# Compiles the stories for Glulx. Wants, on Debian:
#     apt-get update; apt-get install -y --no-install-recommends inform6-compiler inform6-library
# The library there lacks infglk.h; ours, beside this script, has the calls that it names.
set -eu
cd "$(dirname "$0")"
library=${INFORM_LIBRARY:-/usr/share/inform6/library}
compile() { inform6 -G -w '$OMIT_UNUSED_ROUTINES=1' "+include_path=$PWD,$library" "$@"; }
for name in cottage mill workbench; do
    compile "$name.inf" "$name.ulx"
done
# Two Rooms, which isn't compiled, and isn't kept.
python3 two_rooms.py two_rooms.ulx
# The Well House with the library's verbs for finding faults; it isn't kept.
compile -D cottage.inf debug.ulx
