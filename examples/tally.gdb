echo \n# A breakpoint at the instruction that takes the lock.\n
break *0x100f4
continue
info threads
x/i $pc
continue
info threads
delete

echo \n# To the end of the run.\n
continue
print (unsigned)total
monitor where
monitor output

echo \n# Backwards to the write of the total before.\n
watch *(unsigned *)&total
reverse-continue
monitor where
x/i $pc
print *(unsigned *)&total
reverse-continue
info threads
monitor where
print *(unsigned *)&total
delete

echo \n# One instruction back and forwards again.\n
reverse-stepi
x/i $pc
monitor where
stepi
monitor where
reverse-continue
monitor where
