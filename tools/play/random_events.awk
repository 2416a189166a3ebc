# Prints a trace of events at an adapter that are drawn by a fixed generator: opens of every kind, among them such that
# are refused, closes, datagrams that are new, old, idle or none, times short and long, writes, reads, messages over
# streams, class 3 connections with messages that repeat, and answers to the requests of an own object.
#
#   awk -v events=10000 -v seed=42 -v round=50 -f tools/play/random_events.awk [OUTCOMES]
#
# Datagrams, connected messages and answers are for what was opened or asked shortly before, as far as that is known: from
# the outcomes that `eip_line step` printed for the shorter trace of the same seed. An event looks at the outcomes before its
# round of `round` events (50) alone. So a trace that is made longer by one round at a time, and played each time, keeps its
# beginning (tools/play/drawn_adapter).

function draw(bound) {
    state = (state * 16807) % 2147483647
    return int(state / 16) % bound
}

function byte(n) {
    return sprintf("%02x", n % 256)
}

# the two bytes of a number, the low one first
function word(n) {
    return byte(n) byte(int(n / 256))
}

# the four bytes of a number, the low one first
function long_word(n) {
    return word(n % 65536) word(int(n / 65536))
}

# the number that hexadecimal digits spell
function number_of(digits,    at, n) {
    n = 0
    for (at = 1; at <= length(digits); at++)
        n = n * 16 + index("0123456789abcdef", substr(digits, at, 1)) - 1
    return n
}

# what names the connection of a serial number
function triad(serial) {
    return word(serial) "3412" "78563412"
}

# a Forward_Open: of an owner of one of two outputs, of a listener, or of one that gathers; now and then with something
# wrong about it
function open_request(spoiled,    kind, size, consumed, serial, multiplier, input, shared, change, header, path) {
    kind = draw(8)
    size = kind < 2 ? "0a48" : "0248"
    consumed = kind == 0 ? "96" : kind == 1 ? "95" : kind == 2 ? "99" : "98"
    serial = kind < 2 ? 90 + draw(4) : draw(96)
    multiplier = draw(8)
    input = draw(5)
    shared = draw(3) ? "0628" : "0648"
    change = input == 0 ? "11" : "01"
    header = "5402200624010a0e"
    path = "20042497" "2c" consumed "2c" byte(100 + input) (input == 0 ? "4305" : "")
    if (spoiled == 1)
        multiplier = 9
    if (spoiled == 2)
        size = "0a4e"
    if (spoiled == 3)
        shared = "0748"
    if (spoiled == 4)
        change = "03"
    if (spoiled == 5)
        path = "2020" substr(path, 5)
    if (spoiled == 6)
        path = substr(path, 1, 8) "2c" consumed "2c20"
    return header "00000000" word(serial) "0020" triad(serial) byte(multiplier) "000000" "10270000" size \
        "10270000" shared change byte(length(path) / 4) path
}

function close_request() {
    return "4e02200624010a0e" triad(draw(96)) "0300" "20042497" "2c98"
}

# a Forward_Open of a class 3 connection, which lives on the stream over which it comes; its packet intervals are 2 s or 100 ms
function class3_request(    serial, interval) {
    serial = 200 + draw(8)
    interval = draw(4) ? "80841e00" : "a0860100"
    return "5402200624010ac8" "00000000" word(serial) "0050" triad(serial) byte(draw(6)) "000000" interval "6442" interval \
        "6442" "a302" "20022401"
}

# a message of the class 3 connection that was opened last on this stream: a new one, or the last one again; now and then
# of another connection, or longer than the connection's size
function unit(stream,    id, text, length_of) {
    id = draw(16) ? last_class3[stream] + 0 : 7
    unit_count[stream] += draw(3) ? 1 : 0
    text = draw(2) ? "0e03200424" byte(100 + draw(5)) "3003" : "0e03206424013007"
    text = draw(16) ? text : close_request()
    text = draw(16) ? text : text sprintf("%0200d", 0)
    length_of = length(text) / 2
    return "7000" word(length_of + 22) long_word(stream + 1) "00000000" "0000000000000000" "00000000" "00000000" "0000" \
        "0200" "a1000400" long_word(id) "b100" word(length_of + 2) word(unit_count[stream] % 65536) text
}

# an open, a close, a reading of an assembly, or a request to an own object
function request(    kind) {
    kind = draw(16)
    if (kind < 10)
        return open_request(0)
    if (kind < 11)
        return open_request(1 + draw(6))
    if (kind < 15)
        return close_request()
    return draw(2) ? "0e03200424" byte(96 + draw(16)) "3003" : "4b0220642401" byte(draw(256))
}

function registration() {
    return "6500" "0400" "00000000" "00000000" "0102030405060708" "00000000" "01000000"
}

# a request over a stream, within its session
function unconnected(stream, text,    length_of) {
    length_of = length(text) / 2
    return "6f00" word(length_of + 16) long_word(stream + 1) "00000000" "0102030405060708" "00000000" "00000000" "0000" \
        "0200" "00000000" "b200" word(length_of) text
}

# a message over a stream: a registration, its end, a list of services, or a request
function message(stream,    kind, rest) {
    kind = draw(8)
    rest = "00000000" "0102030405060708" "00000000"
    if (kind < 3)
        return registration()
    if (kind == 3)
        return "6600" (draw(2) ? "0400" : "0000") long_word(stream + 1) rest
    if (kind == 4)
        return "0400" (draw(2) ? "0400" : "0000") "00000000" rest
    if (kind == 7 && draw(4))
        return unit(stream)
    return unconnected(stream, kind == 7 ? class3_request() : request())
}

function peer() {
    return "192.168.1." (draw(8) ? 20 : 20 + draw(3))
}

# a datagram for a connection that was opened shortly before: with a header and data, or a heartbeat
function datagram(    back, number, owner, id, idle, value, spoiled, short_one) {
    back = draw(8)
    number = ++sent
    if (!draw(8))
        number = number > 200 ? number - draw(200) : number
    owner = draw(2)
    id = owner ? last_owner : last_opened - back
    if (id < 0)
        id = 0
    idle = draw(4) ? "01" : "00"
    value = byte(draw(255))
    spoiled = !draw(16)
    short_one = !draw(16)
    if (owner == short_one)
        return "0200" "02800800" long_word(id) long_word(number) (spoiled ? "b000" : "b100") "0200" word(int(number / 4))
    return "0200" "02800800" long_word(id) long_word(number) (spoiled ? "b000" : "b100") "0a00" word(int(number / 4)) \
        idle "000000" value "080706"
}

function ticked(    kind) {
    kind = draw(64)
    if (kind == 0)
        return 70000
    if (kind < 3)
        return draw(12000)
    if (kind < 16)
        return draw(300)
    return draw(12)
}

function streamed(    stream, kind) {
    stream = draw(4)
    kind = draw(12)
    if (kind == 0)
        return "cut " stream
    if (kind < 4)
        return "stream " stream " " peer()
    return "frame " stream " " message(stream)
}

# over a stream of its own, which seldom ends: class 3 connections and their messages
function connected(    kind) {
    kind = draw(64)
    talked += 1
    if (talked == 1)
        return "stream 4 " peer()
    if (talked == 2)
        return "frame 4 " registration()
    if (kind > 0)
        return "frame 4 " (kind < 8 ? unconnected(4, class3_request()) : unit(4))
    talked = 0
    return "cut 4"
}

function event(    kind, node) {
    kind = draw(32)
    node = peer()
    if (kind < 5)
        return "request " node " " request()
    if (kind < 16)
        return "datagram " node " " datagram()
    if (kind < 22)
        return "tick " ticked()
    if (kind < 26)
        return "write " (100 + draw(5)) " " (draw(16) ? long_word(draw(256)) : "010203")
    if (kind == 26)
        return "read " (draw(2) ? 150 : 100 + draw(5))
    if (kind < 29)
        return streamed()
    if (kind < 31)
        return connected()
    return "answer " last_asked + draw(4) " " (draw(4) ? "00" : "14") " " long_word(draw(256))
}

# what connections were opened at an event, when this trace was played before; those of class 3 by the stream of the reply
$2 == "frame" {
    stream_at[$1] = $3
}

/ note opened / && $4 >= 200 {
    class3_at[$1] = number_of($NF)
}

/ note opened / && $4 < 200 {
    id_at[$1] = number_of($NF)
    owner_at[$1] = $4 >= 90
}

# which requests were given to the application
$2 == "asked" {
    asked_at[$1] = $3
}

# what was opened and asked at an event is known from now on
function take_up(place) {
    if (place in class3_at)
        last_class3[stream_at[place]] = class3_at[place]
    if (place in asked_at)
        last_asked = asked_at[place]
    if (place in id_at && owner_at[place])
        last_owner = id_at[place]
    else if (place in id_at)
        last_opened = id_at[place]
}

END {
    known = last_asked = 0
    state = seed == "" ? 42 : seed
    round = round == "" ? 50 : round
    print "adapter 16 192.168.1.10 255.255.255.0 1 12 7 2 3"
    print "output 150 4 zero hold"
    print "output 149 4 hold zero"
    print "input 100 4"
    print "input 101 4"
    print "input 102 4"
    print "input 103 4"
    print "config 151 0"
    print "object 100"
    print "heartbeat 152 153"
    for (place = 1; place <= events; place++) {
        if (place % round == 1)
            while (known < place - 1)
                take_up(++known)
        print event()
    }
}
