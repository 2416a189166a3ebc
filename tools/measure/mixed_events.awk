# Prints a trace of mixed events at an adapter for `eip_line step`, to see what time and memory it takes.
#
#   awk -v events=100000 -f tools/measure/mixed_events.awk
#
# A stream has a session, and an owner drives the output with 10 ms both ways. Then come in turn: a request (a
# Forward_Open, a read, a Forward_Close and the same close again, which is refused), a frame with a read, a
# datagram with new data, a write, a read and a tick of 1 ms. With `-v kinds="write read tick"` these alone.

# the two bytes of a number, the low one first
function word(n) {
    return sprintf("%02x%02x", n % 256, int(n / 256) % 256)
}

# the four bytes of a number, the low one first
function long_word(n) {
    return word(n % 65536) word(int(n / 65536))
}

# what names the connection of a serial number
function triad(serial) {
    return word(serial) "3412" "78563412"
}

# a Forward_Open of input 100, from the output or heartbeat of this instance, with both directions' parameters
function open_request(serial, consumed, to_target, to_originator) {
    return "5402200624010a0e" "00000000" word(serial) "0020" triad(serial) "02000000" \
        "10270000" to_target "10270000" to_originator "01" "04" path(consumed)
}

function close_request(serial) {
    return "4e02200624010a0e" triad(serial) "0400" path("98")
}

function path(consumed) {
    return "200424972c" consumed "2c64"
}

# the request in this place among the requests
function request(place, serial) {
    serial = int(place / 4) % 65534 + 2
    if (place % 4 == 0)
        return open_request(serial, "98", "0248", "0648")
    if (place % 4 == 1)
        return read_input
    return close_request(serial)
}

# the datagram of the owner with this sequence number
function datagram(number) {
    return "0200" "02800800" "01000010" long_word(number) "b1000a00" word(number) "01000000" long_word(number)
}

# the event of a kind in this turn
function event(kind, turn) {
    if (kind == "request")
        return "request 192.168.1.21 " request(turn)
    if (kind == "frame")
        return "frame 0 6f001800" session "00000000" "0000" "0200" "00000000" "b2000800" read_input
    if (kind == "datagram")
        return "datagram 192.168.1.20 " datagram(turn + 1)
    if (kind == "write")
        return "write 100 " long_word(turn)
    if (kind == "read")
        return "read 150"
    return "tick 1"
}

BEGIN {
    if (events == "")
        events = 1000
    read_input = "0e03200424643003"
    if (kinds == "")
        kinds = "request frame datagram write read tick"
    count = split(kinds, kind_of, " ")
    session = "01000000" "00000000" "0102030405060708" "00000000"
    print "adapter 16 192.168.1.10 255.255.255.0 1 12 7 2 3"
    print "output 150 4 zero zero"
    print "input 100 4"
    print "config 151 0"
    print "heartbeat 152 153"
    print "stream 0 192.168.1.20"
    print "frame 0 65000400000000000000000001020304050607080000000001000000"
    print "request 192.168.1.20 " open_request(1, "96", "0a48", "0648")
    for (place = 0; place < events - 3; place++)
        print event(kind_of[place % count + 1], int(place / count))
}
