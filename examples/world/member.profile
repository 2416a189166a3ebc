# The scanner of first.profile, whose slot joins the group of input 100.
scanner 32 192.168.1.20 4660 305419896 2000 3000
slot 192.168.1.10 exclusive 151 150 100 4 4 10000 10000 2 multicast - -
