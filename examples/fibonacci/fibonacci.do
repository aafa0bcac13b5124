# prints the Fibonacci numbers from 1 on that are below 100
compile fibonacci.scm fibonacci.o
link fibonacci.c fibonacci.o
run fibonacci.c 10000
