device adapter adapter.profile
device scanner first.profile

# a reply that comes too late
scanner opens adapter
scanner back 0
adapter forth 0
adapter forth 0
scanner back 0
scanner start 0
adapter forth 0
scanner tick 2000
# the scanner has tried again, and is refused, since its own first connection drives the output
scanner tick 3000
adapter forth 0
scanner back 0
scanner back 0
scanner tick 3000
adapter forth 0
scanner back 0
# the next try is not refused, since the first connection has timed out
adapter tick 11000
scanner tick 3000
adapter forth 0
scanner back 0
scanner mode run
scanner write 0 11223344
scanner tick 1
adapter takes 0
adapter read 150
adapter write 100 05060708
adapter tick 1
scanner takes 1
scanner read 0
