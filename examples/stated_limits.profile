# A device whose maker states limits: packet intervals of 20 ms or more, and places for one exclusive owner, four input-only
# connections and one listen-only connection. Its data sheet offers no more. Its vendor number is 0, which is nobody's: a maker gets
# its own from ODVA (odva.org).
adapter 16 192.168.1.10 255.255.255.0 0 12 7 2 3
output 150 4 zero zero
input 100 4
config 151 0
least-rpi 20000
places 1 4 1
heartbeat 152 153
