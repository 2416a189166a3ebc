# A valve island with an output of 2 bytes (150) and an input of 2 bytes (100).
adapter 1 127.0.1.1 255.0.0.0 0 12 7 2 3
output 150 2 zero zero
input 100 2
heartbeat 152 153
