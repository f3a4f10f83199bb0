#!/bin/sh
# Records pipeline.log: a shell that forks three programs, which run at the same time.
cd "$(dirname "$0")" || exit 1
env -i PATH=/usr/bin:/bin LANG=C.UTF-8 \
    strace -f -y -e trace=memory,process -o pipeline.log /bin/sh -c 'ls /usr | sort | wc -l'
