adapter 0 192.168.1.10 255.255.255.0 1 12 7 2 3
output 150 4 zero zero
input 100 4
config 151 0
heartbeat 152 153
