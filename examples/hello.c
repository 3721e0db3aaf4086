/* prints a greeting,
   and what looks like a comment */
#include <stdio.h>
int main(void) { // begins
    puts("/* hello \" */ // world"); /* a call */
    return 0; /* ends
*/ }
