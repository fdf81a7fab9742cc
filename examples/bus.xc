// A byte on eight wires, and a wire that says when to read it. docs/looking.md draws this run.
//
// Look at the stamps in the trace: they are the port's counter, which has 16 bits and counts every tick from 0.
out port strobe = XS1_PORT_1A;
out port data = XS1_PORT_8B;

int main(void) {
  data <: 85;           // at once: at tick 8, since seven instructions come before its OUT and each takes a tick
  strobe @ 1000 <: 1;   // outputs come one after the other: the next one begins when this one is done
  strobe @ 1500 <: 0;
  data @ 65535 <: 300;  // a port of 8 bits outputs the low 8 bits: 300 - 256 = 44
  strobe @ 2000 <: 1;   // 2000 has passed, so the counter has to come round to it: at tick 65536 + 2000
  return 0;
}
