device adapter wider_adapter.profile
device scanner two_slots.profile

# a scanner restarts, and starts its slots in the other order
scanner opens adapter
scanner back 0
adapter forth 0
adapter forth 0
scanner back 0
scanner start 0
scanner start 1
adapter forth 0
adapter forth 0
scanner back 0
scanner back 0
scanner mode run
scanner write 0 11111111
adapter write 100 aaaaaaaa
adapter write 110 bbbbbbbb
scanner tick 1
adapter tick 1
# it restarts; the connections of its first life time out
scanner restarts 33
scanner back 0
adapter forth 0
adapter tick 9999
scanner opens adapter
scanner back 1
adapter forth 1
adapter forth 1
scanner back 1
scanner start 1
scanner start 0
adapter forth 1
adapter forth 1
scanner back 1
scanner back 1
# what was sent to its first life changes no image, and what its first life sent changes no output
scanner takes 2
scanner takes 3
adapter takes 0
scanner read 0
scanner read 1
adapter read 150
# what is sent to it now comes to its slots
adapter tick 1
scanner takes 4
scanner takes 5
scanner read 0
scanner read 1
