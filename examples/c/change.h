// What a plug-in of examples/c/host.c is: a function from a byte of a text to the byte that is put in its place.
typedef int change(int byte);
