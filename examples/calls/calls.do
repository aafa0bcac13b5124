compile calls.scm calls.o
link calls.c calls.o
run calls.c 6
