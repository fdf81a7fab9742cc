// A serial transmitter: bytes over one wire, as a terminal reads them at 115,200 bits a second.
//
// Look at the trace: a byte is ten outputs, 868 ticks of 10 ns apart. The first is the start bit, which is 0, then come the
// eight bits of the byte, the lowest first, and the last is the stop bit, which is 1. The bytes are those of "Hi!".
#define BIT_TIME 868

out port tx = XS1_PORT_1A;

// Sends a byte from a time on, and sets the time to the end of its stop bit.
void send(out port p, unsigned byte, unsigned &time) {
  unsigned frame = 1 << 9 | byte << 1;  // stop bit, byte, start bit
  for (int i = 0; i < 10; i++) {
    p @ time <: frame;  // the lowest bit
    time += BIT_TIME;
    frame >>= 1;
  }
}

int main(void) {
  unsigned time = 2000;

  tx @ 1000 <: 1;  // a wire at rest is high
  send(tx, 0x48, time);
  send(tx, 0x69, time);
  send(tx, 0x21, time);
  return 0;
}
