# A drive with an output of 4 bytes (150), which holds its value while its owner is idle, and an input of 8 bytes (100).
adapter 1 127.0.1.11 255.0.0.0 0 2 9 1 1
output 150 4 hold zero
input 100 8
heartbeat 152 153
