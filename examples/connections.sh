#!/bin/bash
# Connections of every kind, on the store that dealer-batch.sh leaves: each verb and each path, several requests over one connection, sent
# one after the other and all at once, and a client that goes away in the middle of a body.
#
#     examples/connections.sh register.db [PORT]
#
# It prints each request and its answer: connections.out has them. It wants bash, for its connections without curl.
. "$(dirname "$0")/serving.sh"
mary=h-mary000001

# the third of July 2098, 08:00 in New York
echo "4055227200,$operator,dealer,6,d-broker00006,3600" | apply

# ---- each verb that the two other examples leave out, a connection each
serve 13
post $operator dealer '{"dealer":7,"key":"d-broker00007","window":3600}'
post $operator close '{"calendar":1,"date":"2098-07-07"}'
post $operator class '{"class":21,"calendar":1,"fund":2,"name":"BOND-B","family":3,"counts":0,"first_min":"250.00","later_min":"50.00","front":"0.00:0","deferred":"400 300"}'
post $operator class '{"class":22,"calendar":1,"fund":3,"name":"CASH-B","family":3,"counts":0,"first_min":"250.00","later_min":"50.00","front":"0.00:0","deferred":"400 300"}'
post $operator class '{"class":12,"calendar":1,"fund":1,"name":"GROWTH-I","family":0,"counts":1,"first_min":"250.00","later_min":"50.00","front":"0.00:0","deferred":""}'
post $mary buy '{"account":101,"ref":2,"class":21,"gross":"5000.00"}'
post $mary letter '{"account":101,"ref":3,"class":11,"amount":"25000.00"}'
post $mary sell '{"account":101,"ref":4,"class":11,"shares":"100.000"}'
post $mary sellcash '{"account":101,"ref":5,"class":11,"amount":"500.00"}'
post $mary elect '{"account":101,"ref":6,"class":11,"pay":"cash"}'
post $mary buy '{"account":101,"ref":7,"class":11,"gross":"100.00"}'
post $mary cancel '{"account":101,"ref":8,"target":7}'
post $operator dividend '{"class":11,"moment":4055256000,"rate":"0.100000"}'
ended

# 17:00 in New York
echo "4055259600,$operator,household,3,h-ines000003" | apply

serve 12
post $operator sheet '{"calendar":1,"moment":4055256000,"prices":"11:10.00 12:10.00 21:20.00 22:1.00"}'
get $mary trace/101/2
get $mary trace/101/7
post $mary exchange '{"account":101,"ref":9,"class":21,"to":22,"shares":"50.000"}'
post $mary exchangeall '{"account":101,"ref":10,"class":21,"to":22}'
post $mary sellall '{"account":101,"ref":11,"class":11}'
post $operator fixprice '{"fix":1,"bearer":"agent","class":11,"moment":4055083200,"nav":"10.10"}'
post $operator fixrate '{"fix":2,"bearer":"agent","class":11,"moment":4055256000,"rate":"0.110000"}'
post $operator enter '{"fix":3,"bearer":"agent","receipt":4055054500,"verb":"buy","account":101,"ref":12,"class":11,"gross":"1000.00"}'
post $operator replace '{"fix":4,"bearer":"agent","receipt":4055054500,"verb":"buy","account":101,"ref":12,"class":11,"gross":"2000.00"}'
post $operator void '{"fix":5,"bearer":"agent","account":101,"ref":12}'
get $operator books
ended

# ---- several requests over one connection, and clients that come and go
serve 4
port_of() { echo "127.0.0.1:$port/v1/$1"; }
echo "> GET /v1/show/101 and /v1/trace/101/1 by $mary over one connection"
ask -H "X-Agent-Key: $mary" -w '\n%{num_connects}' "$(port_of show/101)" "$(port_of trace/101/1)"

echo "> three requests in one write by $mary"
exec 3<>"/dev/tcp/127.0.0.1/$port"
cat >&3 <<REQUESTS
GET /v1/show/101 HTTP/1.1
Host: register
X-Agent-Key: $mary

GET /v1/trace/101/4 HTTP/1.1
Host: register
X-Agent-Key: $mary

GET /v1/trace/101/7 HTTP/1.1
Host: register
X-Agent-Key: $mary
Connection: close

REQUESTS
tr -d '\r' <&3
echo
exec 3>&-

echo "> POST /v1/buy by $mary, who goes away in the middle of the body"
exec 3<>"/dev/tcp/127.0.0.1/$port"
printf 'POST /v1/buy HTTP/1.1\r\nHost: register\r\nX-Agent-Key: %s\r\nContent-Length: 60\r\n\r\n{"account":101,"ref":13,' $mary >&3
exec 3>&-
# the next client is served
get $mary trace/101/13
ended
