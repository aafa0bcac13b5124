# Each module is compiled by itself, with the interfaces of those that it imports from.
iface shapes.scm shapes.ifc
iface fence.scm fence.ifc
compile shapes.scm shapes.o
compile fence.scm fence.o shapes.ifc
compile garden.scm garden.o shapes.ifc fence.ifc
# The order of these words doesn't matter: modules are initialised after those that they import.
link garden.c garden.o fence.o shapes.o
run garden.c 20
