// The greatest common divisor of two numbers, by Euclid: the rest of a division takes the place of the greater number, until
// nothing is left.
//
// Look at the trace: of each of three pairs it has the two numbers and then what they have in common, 100 ticks apart. Look at
// the last pair: neighbours in the sequence of Fibonacci, which take the most turns.
out port result = XS1_PORT_32A;

unsigned gcd(unsigned a, unsigned b) {
  while (b != 0) {
    unsigned rest = a % b;
    a = b;
    b = rest;
  }
  return a;
}

// Outputs two numbers and their greatest common divisor, from a time on.
void show(out port p, unsigned a, unsigned b, unsigned time) {
  unsigned common = gcd(a, b);
  p @ time <: a;
  p @ time + 100 <: b;
  p @ time + 200 <: common;
}

int main(void) {
  show(result, 1071, 462, 2000);
  show(result, 4000000000, 3000000000, 4000);
  show(result, 2971215073, 1836311903, 6000);
  return 0;
}
