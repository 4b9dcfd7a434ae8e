#!/bin/sh
# A dealer's batch, on the store that day-over-http.sh leaves: orders that the dealer received before 16:00 and sends at 17:00.
#
#     examples/dealer-batch.sh register.db [PORT]
#
# It prints each request and its answer: dealer-batch.out has them.
. "$(dirname "$0")/serving.sh"
dealer=d-broker00005

# the second of July 2098, 17:00 in New York
echo "4055173200,$operator,account,103,2,5,OMAR ROE" | apply

serve 4
batch() {
    echo "> POST /v1/batch by $dealer"
    ask -H "X-Agent-Key: $dealer" --data-binary "@$(dirname "$0")/dealer-batch.csv" "127.0.0.1:$port/v1/batch"
}
# one line of answer for each line: an order due today, one received at 16:00 and due tomorrow, one whose day has its sheet (8, and that
# day's moment), one of an account that names another dealer or none (1)
batch
# the same batch again acts once
batch
post $operator sheet '{"calendar":1,"moment":4055169600,"prices":"11:9.90"}'
get $dealer show/103
ended
