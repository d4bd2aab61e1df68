#!/bin/sh
# Times an uncontended enter and exit of a thin lock, 100,000,000 times (by the processor's time), notifyAll of 32,000
# waiters of one object, and a million objects of which 65,536 get a waiter that is notified; of the last it also tells
# the peak resident memory. Prints one line. GNU's /usr/bin/time has to be there.
set -e
cd "$(dirname "$0")/../crates/bench"
rt run -- monitors 1000 100 50 16 > /dev/null 2>&1
told() { /usr/bin/time -f "$1" ./out/bench monitors $2 2>&1 > /dev/null; }
milliseconds() {
    begin=$(date +%s%N)
    ./out/bench monitors $1 > /dev/null
    echo $(( ($(date +%s%N) - begin) / 1000000 ))
}
pairs=$(told %U '100000000 0 2 0')
crowd=$(milliseconds '0 32000 2 0')
objects=$(milliseconds '0 0 1000000 65536')
peak=$(told %M '0 0 1000000 65536')
echo "enter and exit: $pairs s for 100000000 pairs; 32000 waiters notified: $crowd ms;" \
    "a million objects, 65536 with a waiter: $objects ms, $peak KB at most"
