# What the scripts over HTTP share: the words given to them, the program beside this folder, and one request by curl. It is read by them,
# and is no script of its own.
store=$1
port=${2:-8080}
if [ -z "$store" ]; then
    echo "usage: $0 STORE [PORT]" >&2
    exit 2
fi
agent=${AGENT:-$(dirname "$0")/../bin/agent}
operator=op-desk000001

# the operator's items of a script, before or behind the connections
apply() { "$agent" apply --store "$store" --key $operator; }

# serves so many connections, and then ends by itself
serve() {
    "$agent" serve --store "$store" --port "$port" --key $operator --connections "$1" &
    server=$!
    trap 'kill $server 2>/dev/null' EXIT
}

ended() {
    wait $server
    echo "serve ended with status $?"
    trap - EXIT
}

# one request, which is a connection of its own; it is tried for ten seconds, until the program listens
ask() {
    tries=0
    until answer=$(curl -s "$@"); do
        if [ $? -ne 7 ] || [ $tries -eq 100 ] || ! kill -0 $server 2>/dev/null; then
            echo "$0: nothing answers on port $port" >&2
            exit 1
        fi
        tries=$((tries + 1))
        sleep 0.1
    done
    printf '%s\n' "$answer"
}

# post KEY VERB BODY: the body is the verb's fields in JSON
post() {
    echo "> POST /v1/$2 by $1"
    ask -H "X-Agent-Key: $1" -d "$3" "127.0.0.1:$port/v1/$2"
}

# get KEY PATH
get() {
    echo "> GET /v1/$2 by $1"
    ask -H "X-Agent-Key: $1" "127.0.0.1:$port/v1/$2"
}
