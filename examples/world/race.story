device adapter adapter.profile
device first first.profile
device second second.profile

# the first scanner opens a connection, and runs
first opens adapter
first back 0
adapter forth 0
adapter forth 0
first back 0
first start 0
adapter forth 0
first back 0
first mode run
# its first datagram comes to the output
first write 0 11223344
first tick 1
adapter takes 0
adapter read 150
# its second one is held back, until the connection has timed out
first write 0 aaaaaaaa
first tick 9
adapter tick 160
adapter read 150
# the second scanner opens a connection to the same output, and runs
second opens adapter
second back 1
adapter forth 1
adapter forth 1
second back 1
second start 0
adapter forth 1
second back 1
second mode run
# its datagram comes to the output
second write 0 0b0b0b0b
second tick 1
adapter takes 2
# now the first scanner's second datagram comes: it changes nothing
adapter takes 1
adapter read 150
# a tenth datagram, of which nobody knows
adapter takes 9
# a frame on a stream on which nothing waits
adapter forth 0
# the cut of an eighth stream
adapter cuts 7
# a stream from a device to itself
first opens first
# more than a minute at once
adapter tick 60001
# none of these changed anything
adapter read 150
