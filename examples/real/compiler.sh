#!/bin/sh
# Records compiler.log: gcc starts the compiler proper and the assembler on small.c.
cd "$(dirname "$0")" || exit 1
env -i PATH=/usr/bin:/bin LANG=C.UTF-8 \
    strace -f -y -e trace=memory,process -o compiler.log gcc -c -o /dev/null small.c
