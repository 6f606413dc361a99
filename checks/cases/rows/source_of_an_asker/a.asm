start: LI r1,65535
 TRAP 7
loop: JMP loop
