// Division of unsigned numbers without `/`: restoring division, which makes one bit of the quotient in each turn of its loop.
//
// Look at the trace: of each division it has the quotient and, 100 ticks later, the remainder. Between two divisions there are
// 3000 ticks: 32 turns of the loop take about half of them, whatever the numbers are.
out port result = XS1_PORT_32A;

// Divides n by d, which isn't 0.
void divide(unsigned n, unsigned d, unsigned &quotient, unsigned &remainder) {
  quotient = 0;
  remainder = 0;
  for (int bit = 31; bit >= 0; bit--) {
    unsigned carry = remainder >> 31;  // the bit that the next line shifts out
    remainder = remainder << 1 | (n >> bit & 1);
    quotient <<= 1;
    if (carry || remainder >= d) {
      remainder -= d;
      quotient |= 1;
    }
  }
}

int main(void) {
  unsigned quotient, remainder;

  divide(1000000, 7, quotient, remainder);
  result @ 3000 <: quotient;
  result @ 3100 <: remainder;

  divide(4294967295, 65537, quotient, remainder);
  result @ 6000 <: quotient;
  result @ 6100 <: remainder;

  divide(4000000000, 3000000001, quotient, remainder);  // the carry is needed here
  result @ 9000 <: quotient;
  result @ 9100 <: remainder;
  return 0;
}
