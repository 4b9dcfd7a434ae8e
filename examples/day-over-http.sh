#!/bin/sh
# A day over HTTP: the operator sets the register up, a household buys, the day's sheet gives the price.
#
#     examples/day-over-http.sh register.db [PORT]
#
# STORE is a file that isn't there yet; PORT is 8080 where none is given. It prints each request and its answer: day-over-http.out has them.
#
# The moment of a request over HTTP is the greater of the clock and the journal's last moment. This day is the first of July 2098, which a
# script's item begins and another one ends, ahead of any clock: so the moments are the same whenever it is run. A register in use
# is not set ahead.
. "$(dirname "$0")/serving.sh"

# 08:00 in New York
echo "4055054400,$operator,dealer,5,d-broker00005,21600" | apply

serve 8
post $operator calendar '{"calendar":1,"zone":"EST5EDT,M3.2.0,M11.1.0","time":"16:00","first":"2098-01-01","last":"2107-12-31","holidays":"2098-07-04 2098-11-27 2098-12-25"}'
post $operator class '{"class":11,"calendar":1,"fund":1,"name":"GROWTH-A","family":0,"counts":1,"first_min":"250.00","later_min":"50.00","front":"0.00:575 25000.00:500 50000.00:450 100000.00:350 250000.00:250 500000.00:200 1000000.00:0","deferred":""}'
post $operator household '{"household":1,"key":"h-mary000001"}'
post $operator account '{"account":101,"household":1,"dealer":0,"name":"MARY DOE"}'

# Mary buys for $10,000.00; the answer tells when the order is due: at 16:00
post h-mary000001 buy '{"account":101,"ref":1,"class":11,"gross":"10000.00"}'
# the same request again acts once
post h-mary000001 buy '{"account":101,"ref":1,"class":11,"gross":"10000.00"}'
get h-mary000001 trace/101/1
# too soon for the sheet: 18, and its moment
post $operator sheet '{"calendar":1,"moment":4055083200,"prices":"11:10.00"}'
ended

# 17:00 in New York
echo "4055086800,$operator,household,2,h-omar000002" | apply

serve 6
post $operator sheet '{"calendar":1,"moment":4055083200,"prices":"11:10.00"}'
get h-mary000001 trace/101/1
get h-mary000001 show/101
get h-mary000001 statement/101/2098-07-01/2098-07-31
# nobody else's account: 1, no right
get h-omar000002 show/101
get $operator books
ended
