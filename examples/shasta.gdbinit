# For GDB over a recorded run: `source shasta.gdbinit`. A command of `monitor` moves the run without
# GDB's knowledge; these two have it read its registers and its memory anew.

define to-miss
    monitor miss
    maintenance flush register-cache
    maintenance flush dcache
end
document to-miss
Goes on to the next instruction that misses a block.
end

define to-write
    monitor back-to-write $arg0
    maintenance flush register-cache
    maintenance flush dcache
end
document to-write
Goes back to before the last write of the byte at an address, as `to-write 0x11300`.
end
