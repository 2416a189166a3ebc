# A scanner at 192.168.1.21, whose slot is for the same output as that of first.profile.
scanner 33 192.168.1.21 4660 305419897 2000 3000
slot 192.168.1.10 exclusive 151 150 100 4 4 10000 10000 2 p2p - -
