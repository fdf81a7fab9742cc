// A pulse: p goes high at one time and low at another. `xcsim run` writes what pulse.out has.
//
// Look at the listing: each output is a few instructions, each with the place of its `p` in this text. `SETPT` sets the time,
// and `OUT` waits until the port's counter is that time.
// Look at the trace: a line for each output, with its core, its port, the counter and the value.
out port p = XS1_PORT_1A;

int main(void) {
  p @ 100 <: 1;
  p @ 350 <: 0;
  return 0;
}
