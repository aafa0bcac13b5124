# Compiles, links and runs one module. Paths are relative to where bglc runs.
compile h.scm h.o
link h.c h.o
run h.c 1
