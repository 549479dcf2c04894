#!/usr/bin/env bash
# The same moves in glulxe and in storyhost, one after the other on this machine, as a table in
# Markdown: processor seconds, their ratio, work a second, peak memory. It takes some two minutes.
# Wants, on Debian:
#     apt-get update; apt-get install -y --no-install-recommends glulxe
#     apt-get install -y --no-install-recommends gargoyle-free xvfb xdotool   (git, if that is wanted too)
# and a storyhost that was built (README.md, "Begin"). The stories lie in stories/ as compiled files.
# It needs no network.
set -eu
cd "$(dirname "$0")"
exec python3 measure.py "$@"
