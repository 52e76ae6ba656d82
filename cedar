#!/bin/sh
# Formats Cedar policies: ./cedar format [-p FILE] [-i N] [-l N] [--check]
root=$(dirname "$(readlink -f "$0")")
. "$root/tools/launch.sh"
find_program cedar cedar
exec "$program" "$@"
