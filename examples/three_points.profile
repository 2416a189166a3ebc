# A device at 192.168.1.10 with outputs of 2 bytes (300) and of 1 byte (151), an input of 2 bytes (70000) and no configuration.
# Its vendor number is 0, which is nobody's: a maker gets its own from ODVA (odva.org).
adapter 16 192.168.1.10 255.255.255.0 0 43 1 1 1
output 300 2 zero zero
output 151 1 hold zero
input 70000 2
heartbeat 152 153
