# A device with an output of 4 bytes (150), an input of 4 bytes (100) and no configuration, at 127.0.0.10. Its vendor number
# is 0, which is nobody's: a maker gets its own from ODVA (odva.org).
adapter 16 127.0.0.10 255.0.0.0 0 12 7 2 3
output 150 4 zero zero
input 100 4
config 151 0
heartbeat 152 153
