device adapter adapter.profile
device scanner member.profile

# the only member of a group restarts
scanner opens adapter
scanner back 0
adapter forth 0
adapter forth 0
scanner back 0
scanner start 0
adapter forth 0
scanner back 0
adapter write 100 aaaaaaaa
adapter tick 1
scanner takes 0
# the group produces on, and what it sends changes nothing at the next life
scanner restarts 33
adapter tick 9
scanner takes 1
scanner read 0
# the group ends with the connection of the first life
adapter forth 0
adapter tick 9990
scanner opens adapter
scanner back 1
adapter forth 1
adapter forth 1
scanner back 1
scanner start 0
adapter forth 1
scanner back 1
# the next group has an id of its own
scanner takes 1
adapter tick 1
scanner takes 2
scanner read 0
