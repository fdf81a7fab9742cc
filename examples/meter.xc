// A meter of pulses: how long a wire is high, and how far the end of a pulse is behind the end of the one before.
//
// Look at the trace: a width is the difference of two stamps, those of the rising and of the falling edge. The second pulse is high
// from tick 64800 to tick 70000, and the counter goes round meanwhile: 4464 - 64800 is 5200 in 16 bits. What is longer than a turn of
// 65536 ticks can't be told from stamps, but by a timer, which has 32 bits: the second pulse ends 68250 ticks behind the first.
in port wire = XS1_PORT_1B;
out port width = XS1_PORT_16A;
out port period = XS1_PORT_32A;

int main(void) {
  timer t;
  unsigned rise, fall, before, now;
  for (int i = 0; i < 3; i++) {
    wire when pinseq(1) :> void @ rise;
    wire when pinseq(0) :> void @ fall;
    t :> now;  // some ticks behind the edge, but in each turn as many: so the difference of two is exact
    width @ fall + 500 <: fall - rise;  // a port of 16 bits, as its counter
    if (i > 0) period @ fall + 600 <: now - before;
    before = now;
  }
  return 0;
}
