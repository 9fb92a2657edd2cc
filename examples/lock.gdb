echo \n# A breakpoint of the third processor alone.\n
break main thread 3
continue
info threads
delete

echo \n# A breakpoint of any processor: the other two come to it.\n
break *0x10260
continue
continue
info threads
delete

echo \n# The lock's tickets are taken one after another.\n
rwatch *(unsigned *)&lock
continue
continue
continue
monitor where
delete

echo \n# The end of the run, and the last access to the number of moves before it.\n
continue
monitor output
awatch *(unsigned *)((char *)&bank + 20)
reverse-continue
x/i $pc
reverse-continue
x/i $pc
monitor where
delete
detach
