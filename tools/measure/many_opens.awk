# Prints a long trace for `eip_line step`, to see that time and memory grow with its length alone.
#
#   awk -v requests=100000 -f tools/measure/many_opens.awk
#
# Requests come in pairs: a Forward_Open of a new serial number (input only, point to point both ways, 10 ms),
# and the same again, which is refused. With `-v closes=1` they come in fours: then a Forward_Close of that
# connection, and the same close again, which is refused too.

# the two bytes of a number, the low one first
function word(n) {
    return sprintf("%02x%02x", n % 256, int(n / 256))
}

# what names the connection of a serial number
function triad(serial) {
    return word(serial) "3412" "78563412"
}

function open_request(serial) {
    return "5402200624010a0e" "00000000" word(serial) "0020" triad(serial) "02000000" \
        "10270000" "0248" "10270000" "0648" "01" "04" path
}

function close_request(serial) {
    return "4e02200624010a0e" triad(serial) "0400" path
}

BEGIN {
    if (requests == "")
        requests = 1000
    path = "200424972c982c64"
    group = closes ? 4 : 2
    print "adapter 16 192.168.1.10 255.255.255.0 1 12 7 2 3"
    print "output 150 4 zero zero"
    print "input 100 4"
    print "config 151 0"
    print "heartbeat 152 153"
    for (n = 0; n < requests; n++) {
        serial = int(n / group) % 65535 + 1
        print "request 192.168.1.20 " (n % group < 2 ? open_request(serial) : close_request(serial))
    }
}
