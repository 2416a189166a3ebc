# Prints a trace of events at a scanner that are drawn by a fixed generator: streams that open and break, replies that open
# and close slots, replies with something wrong about them, datagrams that are new, old, idle or none, times short and long,
# writes, reads, changes of mode, starts and stops.
#
#   awk -v events=10000 -v seed=42 -f tools/play/random_scanner_events.awk [OUTCOMES]
#
# A reply answers a request that the scanner sent before, as far as its outcomes are known: those that `eip_line step` printed
# for the shorter trace of the same seed. An event looks at the outcomes before its round of `round` events (25) alone. So a
# trace that is made longer by one round at a time, and played each time, keeps its beginning (tools/play/drawn_scanner).

function draw(bound) {
    state = (state * 16807) % 2147483647
    return int(state / 16) % bound
}

function byte(n) {
    return sprintf("%02x", n % 256)
}

# the two bytes of a number, the low one first
function word(n) {
    return byte(n) byte(int(n / 256))
}

# the four bytes of a number, the low one first
function long_word(n) {
    return word(n % 65536) word(int(n / 65536))
}

# the given number of bytes from the given place on, as digits
function field(digits, place, size) {
    return substr(digits, 2 * place + 1, 2 * size)
}

function target(    n) {
    n = draw(16)
    return "192.168.1." (n < 15 ? 10 + n % 3 : 40)
}

# the answer to a registration: the session begins, or is refused
function registered(handle) {
    if (!draw(8))
        return "65000400" long_word(handle) "01000000" "0000000000000000" "00000000" "01000000"
    return "65000400" long_word(handle) "00000000" "0000000000000000" "00000000" "01000000"
}

# a message with a reply of the message router in it
function unit(handle, context, reply,    size) {
    size = length(reply) / 2
    return "6f00" word(size + 16) long_word(handle) "00000000" context "00000000" "00000000" "0000" "0200" "00000000" \
        "b200" word(size) reply
}

# a reply to a Forward_Open: a success, a refusal, or one with something wrong about it
function open_reply(asked, stream,    service, kind, o_t, t_o, triad, apis) {
    service = byte(128 + (substr(asked, 81, 2) == "5b" ? 91 : 84))
    t_o = field(asked, 52, 4)
    triad = field(asked, 56, 8)
    apis = long_word(10000 * (1 + draw(3))) long_word(10000 * (1 + draw(3)))
    o_t = long_word(4096 + draw(64))
    kind = draw(24)
    # a multicast connection: the target chooses the id
    if (t_o == "00000000" || kind == 0) {
        t_o = word(draw(4)) "0020"
        note_id(t_o, stream)
    }
    if (kind == 1)
        triad = word(draw(65536)) substr(triad, 5)
    if (kind == 2)
        apis = "00000000" long_word(10000)
    if (kind == 3)
        return service "000101" "1301" triad "0000"
    if (kind == 4)
        return service "000101" "0601" triad "0000"
    if (kind == 5)
        return "ce000000" o_t t_o triad apis "0000"
    if (kind == 6)
        return service "000000" o_t t_o triad
    return service "000000" o_t t_o triad apis "0000"
}

# a reply to a Forward_Close: a success, a refusal, or none that can be read
function close_reply(asked,    triad) {
    triad = field(asked, 50, 8)
    if (!draw(4))
        return "ce000101" "0701" triad "0000"
    if (!draw(8))
        return "ce00"
    return "ce000000" triad "0000"
}

# the reply to one of the last requests, or to a registration
function frame(    back, stream, asked, context, handle) {
    if (!waits || !draw(8)) {
        stream = 1 + draw(4)
        return "frame " stream " " (draw(6) ? registered(stream + 16) : "0400" "0000" "00000000" "00000000" "0000000000000000" "00000000")
    }
    back = draw(draw(8) ? 3 : waits)
    if (back >= waits)
        back = waits - 1
    asked = waiting[waits - 1 - back]
    stream = waiting_on[waits - 1 - back]
    if (field(asked, 0, 2) == "6500")
        return "frame " stream " " registered(stream + 16)
    context = field(asked, 12, 8)
    if (!draw(24))
        context = long_word(draw(64)) "00000000"
    handle = stream + 16
    if (!draw(24))
        stream = 1 + draw(4)
    return "frame " stream " " unit(handle, context, field(asked, 40, 1) == "4e" ? close_reply(asked) : open_reply(asked, stream))
}

# an id that the scanner requested, or that a target chose for a group, and the node at the other end
function note_id(id, stream) {
    ids[id_count] = id
    nodes[id_count++] = "192.168.1." (9 + stream)
}

# a datagram for a connection that was opened shortly before, with what may be wrong about it
function datagram(    id, node, number, size, spoiled, at) {
    at = draw(draw(3) ? 3 : 8)
    id = at < id_count ? ids[id_count - 1 - at] : word(draw(4)) "0020"
    node = at < id_count && draw(16) ? nodes[id_count - 1 - at] : target()
    number = ++sent
    if (!draw(8))
        number = number > 200 ? number - draw(200) : number
    size = draw(16) ? 6 : 10
    spoiled = !draw(24)
    return node " " "0200" "02800800" id long_word(number) (spoiled ? "b000" : "b100") word(size) word(int(number / 4)) \
        byte(draw(256)) "060708" (size == 10 ? "01020304" : "")
}

function ticked(    kind) {
    kind = draw(512)
    if (kind == 0)
        return 70000
    if (kind < 8)
        return draw(12000)
    if (kind < 100)
        return draw(300)
    return draw(12)
}

function streamed(    stream) {
    stream = 1 + draw(4)
    if (!draw(4))
        return "cut " stream
    return "stream " stream " " (draw(6) ? "192.168.1." (9 + stream) : target())
}

function event(    kind) {
    kind = draw(32)
    if (kind < 8)
        return frame()
    if (kind < 15)
        return "datagram " datagram()
    if (kind < 20)
        return "tick " ticked()
    if (kind < 22)
        return "write " draw(9) " " (draw(16) ? long_word(draw(256)) : "010203")
    if (kind == 22)
        return "read " draw(9)
    if (kind == 23)
        return draw(2) ? "mode run" : "mode idle"
    if (kind < 27)
        return "start " draw(draw(16) ? 8 : 70)
    if (kind == 27)
        return "stop " draw(8)
    if (kind < 31)
        return streamed()
    return draw(2) ? "request 192.168.1.10 0e03200424963003" : frame()
}

# what the scanner sent at an event, when this trace was played before
$2 == "frame" {
    frames_at[$1]++
    stream_at[$1, frames_at[$1]] = $3
    frame_at[$1, frames_at[$1]] = $4
}

# the requests that were sent at an event now wait for their replies
function take_up(place,    n, digits) {
    for (n = 1; n <= frames_at[place]; n++) {
        digits = frame_at[place, n]
        waiting_on[waits] = stream_at[place, n]
        waiting[waits++] = digits
        if (field(digits, 40, 1) == "54" || field(digits, 40, 1) == "5b")
            note_id(field(digits, 52, 4), stream_at[place, n])
    }
}

END {
    waits = id_count = known = sent = 0
    state = seed == "" ? 42 : seed
    print "scanner 32 192.168.1.20 4660 305419896 2000 3000"
    print "slot 192.168.1.10 exclusive 151 150 100 4 4 10000 10000 2 p2p - -"
    print "slot 192.168.1.10 input 151 152 101 0 4 10000 10000 0 multicast - -"
    print "slot 192.168.1.11 exclusive 151 149 100 4 4 20000 10000 1 p2p 0100000000000000 01020304"
    print "slot 192.168.1.11 input - 152 102 0 4 10000 30000 3 p2p - - change 1"
    print "slot 192.168.1.12 listen - 153 100 0 4 10000 10000 7 multicast - -"
    print "slot 192.168.1.12 exclusive 151 150 100 4 4 5000 5000 0 p2p - -"
    print "slot 192.168.1.12 input 151 152 101 0 8 10000 10000 2 p2p - -"
    print "slot 192.168.1.10 exclusive - 148 103 4 4 1000 1000 0 p2p - -"
    round = round == "" ? 25 : round
    for (place = 1; place <= events; place++) {
        if (place % round == 1)
            while (known < place - 1)
                take_up(++known)
        print event()
    }
}
