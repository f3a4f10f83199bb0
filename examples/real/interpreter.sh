#!/bin/sh
# Records interpreter.log: Python loads two modules that stand in shared libraries.
cd "$(dirname "$0")" || exit 1
env -i PATH=/usr/bin:/bin LANG=C.UTF-8 \
    strace -f -y -e trace=memory,process -o interpreter.log /usr/bin/python3 -I -c 'import ctypes, json'
