# A described device: its serial number, its name Pump, its port, a link of 100 Mbit/s with full duplex, its physical address, and an
# end of silent streams after two minutes. Its data sheet has the classes of its objects.
adapter 16 192.168.1.10 255.255.255.0 0 12 7 2 3
output 150 4 zero zero
input 100 4
config 151 2
describe 305419896 50756d70 44818 100 15 02a1b2c3d4e5 120
places 1 4 1 8
heartbeat 152 153
