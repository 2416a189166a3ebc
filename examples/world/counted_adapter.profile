# The adapter of adapter.profile with a second output, 160, and a second input, 110.
adapter 16 192.168.1.10 255.255.255.0 1 12 7 2 3
output 150 4 zero zero
output 160 4 zero zero
input 100 4
input 110 4
config 151 0
ids 268435457 16777215
heartbeat 152 153
