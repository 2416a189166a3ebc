# Prints a trace with the outcome of each event behind it, as `eip_line step` printed it: a trace that records.
#
#   eip_line step < TRACE > OUTCOMES; awk -f tools/measure/with_outcomes.awk OUTCOMES TRACE

# what was printed of each event
NR == FNR {
    printed[$1] = printed[$1] $0 "\n"
    next
}

{ print }

/^(request|stream|frame|cut|datagram|write|read|tick|mode|start|stop) / { printf "%s", printed[++number] }
