#!/bin/sh
# Measures how many lines of 74 bytes a second go from one fanout to another by the commands of docs/MACHINES.md, on one machine: through each
# broker that is there (tools/machines.sh installs them), beside a pipe that the two programs share. From the start of machine A to the last
# line in the file of machine B, in turns; medians, the least and the greatest. The last column is what is worth comparing: how many times more
# lines a second go through the pipe. All that runs here, also the broker, shares the processors, and is niced.
# Usage: PROGRAM=FILE bench/machines.sh [RUNS [LINES]] (3 and 100,000; ten times as many through the pipe, a fifth through NATS and a tenth through
# RabbitMQ). The file is the native program of fanout; without a name it is the one that `rt ci` leaves in crates/fanout/out.
set -eu
cd "$(dirname "$0")/.."
. tests/program.sh
begin fanout
there=
for broker in redis mosquitto nats rabbitmq; do
    if [ -z "$(tools/machines.sh missing $broker)" ]; then
        there="$there $broker"
    else
        echo "$broker: skipped: not there"
    fi
done
nice -n 10 python3 tests/machines/measure.py "$program" "$work" "$there" "${1:-3}" "${2:-100000}"
