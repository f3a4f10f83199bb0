#!/bin/sh
# Records heap.log: Perl fills a list of small strings, lets one string grow, and gives both back.
cd "$(dirname "$0")" || exit 1
env -i PATH=/usr/bin:/bin LANG=C.UTF-8 \
    strace -f -y -e trace=memory,process -o heap.log /usr/bin/perl -e '
        push @list, "small" x 100 for 1..3000;
        $long .= "long" x 50000 for 1..10;
        undef $long; undef @list;'
