/* One number in each form that it may have, and the lines that begin with a #.

   Look at the trace: each output has the value 10. Look at the listing: nothing is left there of how a number was written. */
#include <xs1.h>
#define TEN 10      // from here on TEN is the number 10
#define PERIOD 0x40

void tell(int x);   // a prototype is read and dropped

out port data = XS1_PORT_8A;

int main(void) {
  data <: 10;                 // decimal
  data <: 10u;                // unsigned, which makes no difference to an output; U does the same
  data <: 0xA;                // hexadecimal
  data <: 0b1010;             // binary
  data <: 012;                // octal
  data <: TEN;                // by a name
  data <: ((10));             // in brackets
  data @ PERIOD <: TEN;       // a time is such a number too: 64
  data @ (0b1100000U) <: 10;  // 96
  return 0;
}
