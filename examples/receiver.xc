// A serial receiver: it reads what serial.xc sends, at 115,200 bits a second. Its stimulus was made of the trace of that program, by
// `tools/stim-from-trace serial.out 0:1A=0:1B`.
//
// Look at the trace: the edge of a start bit tells when a byte begins, and from there the wire is read in the middle of each bit, 868
// ticks of 10 ns apart. Behind each start bit come nine such inputs: eight bits, the lowest first, and the stop bit, which is 1.
#define BIT_TIME 868

in port rx = XS1_PORT_1B;
out port shown = XS1_PORT_8A;

// Receives a byte, and gives its stop bit. `time` becomes the time at which that was read.
int receive(in port wire, unsigned &byte, unsigned &time) {
  int bit;
  byte = 0;
  wire when pinseq(0) :> void @ time;  // the edge of the start bit
  time += BIT_TIME / 2;                // the middle of it
  for (int i = 0; i < 8; i++) {
    time += BIT_TIME;
    wire @ time :> bit;
    byte |= bit << i;
  }
  time += BIT_TIME;
  wire @ time :> bit;
  return bit;
}

int main(void) {
  unsigned byte, time;
  rx when pinseq(1) :> void;  // a wire at rest is high
  for (int i = 0; i < 3; i++) {
    int good = receive(rx, byte, time);
    if (good) shown @ time + 200 <: byte;
  }
  return 0;
}
