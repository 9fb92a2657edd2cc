echo \n# The first misses, and the nodes behind each.\n
monitor where
monitor miss
monitor where
monitor node 0
monitor block 0x11300
monitor miss
monitor node 1
monitor block 0x11300

echo \n# A motion forwards shows the nodes behind the fewest events again.\n
thread 2
stepi
monitor where
monitor node 0

# GDB reads anew what it sees of the run, which a command has moved.
define to-miss
    monitor miss
    maintenance flush register-cache
    maintenance flush dcache
end
define to-write
    monitor back-to-write $arg0
    maintenance flush register-cache
    maintenance flush dcache
end

echo \n# A miss of the other node: both want to write the balance.\n
to-miss
x/i $pc
monitor node 0
monitor node 1
monitor block 0x11300
info threads

echo \n# The end of the run, and back to the last two writes of the balance.\n
continue
to-miss
monitor where
to-write 0x11300
info threads
print balance
to-write 0x11300
print balance
to-write 0x11400

echo \n# What can't be told.\n
monitor node 2
monitor block 0x10000
monitor where now
detach
