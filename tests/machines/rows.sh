#!/bin/sh
# Carries lines from one fanout through a broker to another, by the commands of docs/MACHINES.md, and looks at what arrives: also while the
# broker is killed and started again, and while the reading machine stands still. Of a broker that isn't there it says `skipped`, and that
# is neither passed nor failed. tools/machines.sh installs the brokers, and starts them.
# It needs the native program, which `rt ci` leaves in crates/fanout/out, Python 3 and Perl.
# Usage: tests/machines/rows.sh [--whole] [ROW..]: with --whole 100,000 lines in place of 2,000 (RabbitMQ: 5,000), and the rows that
# take long, in some ten minutes; without it the rows take a minute or two.
set -eu
cd "$(dirname "$0")/../.."
there=
for broker in redis mosquitto nats rabbitmq kafka-mock; do
    missing=$(tools/machines.sh missing $broker | tr '\n' ' ')
    if [ -z "$missing" ]; then
        there="$there $broker"
    else
        echo "$broker: skipped: not there: $missing"
    fi
done
if [ -z "$there" ]; then
    echo '0 passed, 0 failed'
    exit 0
fi
. tests/program.sh
begin fanout
python3 tests/machines/rows.py "$program" "$work" "$there" "$@"
