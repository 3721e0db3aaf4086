# a program of two parts
program: main.o table.o
	cc -o program main.o table.o
main.o: main.c table.h
table.o: table.c table.h
table.h: table.def
	./generate table.def >table.h
clean:
	rm -f *.o
