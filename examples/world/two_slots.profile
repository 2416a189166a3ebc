# The scanner of first.profile with a second slot, for output 160 and input 110.
scanner 32 192.168.1.20 4660 305419896 2000 3000
slot 192.168.1.10 exclusive 151 150 100 4 4 10000 10000 2 p2p - -
slot 192.168.1.10 exclusive 151 160 110 4 4 10000 10000 2 p2p - -
