# A scanner at 127.0.0.20 that owns the output 150 of the device at 127.0.0.10 and gathers its input 100, every 10 ms. Its
# vendor number is 0, which is nobody's: a maker gets its own from ODVA (odva.org). Its serial number is 0: a station puts the number in
# its place that it draws at its first start. A program of your own puts one that no other device of this vendor number has.
scanner 32 127.0.0.20 0 0 2000 3000
slot 127.0.0.10 exclusive 151 150 100 4 4 10000 10000 2 p2p - -
