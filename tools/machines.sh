#!/usr/bin/env bash
# Brokers for docs/MACHINES.md, tests/machines and bench/machines.sh: each runs on 127.0.0.1, on a free port, in a folder of its own.
#
#     tools/machines.sh install               installs what is missing, by apt-get
#     tools/machines.sh missing BROKER        prints the programs that BROKER needs and that aren't there
#     tools/machines.sh serve BROKER FOLDER   runs BROKER in FOLDER until it is killed: the process becomes the broker
#     tools/machines.sh show BROKER..         runs each in a temporary folder, prints its port, and ends it when the input ends
#
# BROKER is redis, mosquitto, nats or rabbitmq; redis-plain and mosquitto-plain are the same with the limits and the saving that they have if
# nothing is configured. kafka-mock is no broker: it is what kcat has inside for its own tests, which keeps some lines in memory.
# `serve` writes the port to FOLDER/port if that file isn't there, and else uses the one that it names: a broker that was killed comes back with
# its port and its files.
set -u

# fail TEXT
fail() {
    printf 'machines: %s\n' "$1" >&2
    exit 1
}

# programs BROKER: what must be there to run BROKER and to write to it and read from it.
programs() {
    case $1 in
    redis*) echo redis-server redis-cli perl ;;
    mosquitto*) echo mosquitto mosquitto_pub mosquitto_sub split ;;
    nats) echo nats-server mosquitto_pub mosquitto_sub split ;;
    rabbitmq) echo rabbitmq-server epmd amqp-publish amqp-consume amqp-declare-queue ;;
    kafka-mock) echo kcat ;;
    *) fail "there is no broker $1" ;;
    esac
}

# missing BROKER
missing() {
    local program found
    found=$(programs "$1") || exit
    for program in $found; do
        command -v "$program" >/dev/null || echo "$program"
    done
}

# install: Debian starts a service after it was installed, unless this machine forbids that (/usr/sbin/policy-rc.d).
install() {
    local broker wanted=
    for broker in redis mosquitto nats rabbitmq kafka-mock; do
        wanted="$wanted $(missing "$broker" | tr '\n' ' ')"
    done
    [ -n "${wanted// /}" ] || return 0
    if [ "$(id -u)" -ne 0 ] || ! command -v apt-get >/dev/null; then
        fail "missing:$wanted; only root can install them, by apt-get"
    fi
    apt-get update && DEBIAN_FRONTEND=noninteractive apt-get install -y --no-install-recommends \
        redis-server redis-tools mosquitto mosquitto-clients nats-server rabbitmq-server amqp-tools kcat || fail "missing:$wanted; apt-get failed"
}

free_port() {
    python3 -c 'import socket; s = socket.socket(); s.bind(("127.0.0.1", 0)); print(s.getsockname()[1])'
}

# configure BROKER PORT: prints the configuration of a broker that runs in the current folder.
configure() {
    case $1 in
    redis)
        # What was answered is on the disk; and no snapshots.
        printf 'bind 127.0.0.1\nport %s\ndir %s\nappendonly yes\nappendfsync always\nsave ""\n' "$2" "$PWD"
        ;;
    redis-plain)
        printf 'bind 127.0.0.1\nport %s\ndir %s\n' "$2" "$PWD"
        ;;
    mosquitto)
        # No limit of what waits for a client; and all that waits is saved once a second.
        printf 'listener %s 127.0.0.1\nallow_anonymous true\nuser root\nlog_dest stderr\n' "$2"
        printf 'persistence true\npersistence_location %s/\nautosave_interval 1\nmax_queued_messages 0\n' "$PWD"
        ;;
    mosquitto-plain)
        printf 'listener %s 127.0.0.1\nallow_anonymous true\nuser root\nlog_dest stderr\n' "$2"
        printf 'persistence true\npersistence_location %s/\n' "$PWD"
        ;;
    nats)
        # MQTT needs a server's name and JetStream. NATS's own port is any free one (-1). What a client has not acknowledged is sent again
        # after 10 seconds, and not 30.
        printf 'listen: "127.0.0.1:-1"\nserver_name: m\njetstream { store_dir: "%s/js" }\n' "$PWD"
        printf 'mqtt { listen: "127.0.0.1:%s", max_ack_pending: 10000, ack_wait: "10s" }\n' "$2"
        ;;
    esac
}

# serve_rabbitmq: it looks for its own name by a server (epmd), which is a child of this process and ends after it. Nothing is shared with a
# RabbitMQ that this machine may have.
serve_rabbitmq() {
    export HOME=$PWD RABBITMQ_NODENAME=m@localhost RABBITMQ_NODE_IP_ADDRESS=127.0.0.1 RABBITMQ_MNESIA_BASE=$PWD/db RABBITMQ_LOG_BASE=$PWD/log
    export RABBITMQ_LOGS=- RABBITMQ_ENABLED_PLUGINS_FILE=$PWD/plugins RABBITMQ_CONFIG_FILE=$PWD/conf RABBITMQ_PID_FILE=$PWD/pid
    export RABBITMQ_NODE_PORT RABBITMQ_DIST_PORT ERL_EPMD_PORT ERL_EPMD_ADDRESS=127.0.0.1
    RABBITMQ_NODE_PORT=$(cat port)
    RABBITMQ_DIST_PORT=$(free_port)
    ERL_EPMD_PORT=$(free_port)
    echo '[].' >plugins
    (
        epmd -address 127.0.0.1 -port "$ERL_EPMD_PORT" &
        while kill -0 $$ 2>/dev/null; do
            sleep 0.2
        done
        kill $!
    ) </dev/null >/dev/null 2>&1 &
    for _ in $(seq 600); do
        ! epmd -port "$ERL_EPMD_PORT" -names >/dev/null 2>&1 || break
        sleep 0.1
    done
    # Its script becomes the broker only if it believes that systemd has started it.
    RUNNING_UNDER_SYSTEMD=1 exec /usr/lib/rabbitmq/bin/rabbitmq-server
}

# serve BROKER FOLDER
serve() {
    [ -z "$(missing "$1")" ] || fail "missing: $(missing "$1" | tr '\n' ' ')"
    mkdir -p "$2" && cd "$2" || fail "$2 can't be made"
    [ "$1" = kafka-mock ] || [ -s port ] || free_port >port || fail 'no free port'
    [ "$1" = kafka-mock ] || configure "$1" "$(cat port)" >conf
    case $1 in
    redis*) exec redis-server "$PWD/conf" ;;
    mosquitto*) exec mosquitto -c conf ;;
    nats) exec nats-server -c conf ;;
    rabbitmq) serve_rabbitmq ;;
    kafka-mock)
        # It takes any free port, and says which.
        rm -f port mock
        (
            for _ in $(seq 600); do
                sed -n 's/.*bootstrap.servers=127.0.0.1:\([0-9]*\).*/\1/p' mock 2>/dev/null | head -n 1 >port
                [ ! -s port ] || break
                sleep 0.1
            done
        ) &
        exec kcat -C -b none -X test.mock.num.brokers=1 -d mock -t none -o end -q 2>mock
        ;;
    esac
}

# show BROKER..
show() {
    local work broker children=()
    work=$(mktemp -d) || fail 'no temporary folder can be made'
    for broker; do
        "$0" serve "$broker" "$work/$broker" </dev/null >"$work/$broker.log" 2>&1 &
        children+=($!)
        while [ ! -s "$work/$broker/port" ] && kill -0 "${children[-1]}" 2>/dev/null; do
            sleep 0.1
        done
        kill -0 "${children[-1]}" 2>/dev/null || cat "$work/$broker.log" >&2
        echo "$broker: HOST=127.0.0.1 PORT=$(cat "$work/$broker/port"), in $work/$broker"
    done
    cat >/dev/null
    kill "${children[@]}" 2>/dev/null
    wait
    rm -rf "$work"
}

case ${1-}:$# in
install:1) install ;;
missing:2) missing "$2" ;;
serve:3) serve "$2" "$3" ;;
show:[2-9]) shift && show "$@" ;;
*)
    sed -n '2,/^set/{/^# *\(tools\|    tools\)/s/^# *//p}' "$0" >&2
    exit 2
    ;;
esac
