// A bus of eight wires, each driven by a thread of its own: a frame, a beat, and six lanes that send a byte each, side by side.
//
// Look at the ticks in the trace: the beat falls when the lanes change, and rises when they may be read. What happens at one tick
// stands in the order of the branches, which is that of their threads. The `par` ends when all eight have ended; behind it the
// lanes' counts are there, and the first thread goes on alone.
#define START 1000
#define BIT_TIME 100

out port framed = XS1_PORT_1A;
out port beats = XS1_PORT_1B;
out port lane0 = XS1_PORT_1C;
out port lane1 = XS1_PORT_1D;
out port lane2 = XS1_PORT_1E;
out port lane3 = XS1_PORT_1F;
out port lane4 = XS1_PORT_1G;
out port lane5 = XS1_PORT_1H;
out port count = XS1_PORT_8A;

// 0 as long as bits are on their way.
void frame(out port wire) {
  wire @ START - BIT_TIME <: 0;
  wire @ START + 9 * BIT_TIME <: 1;
}

void beat(out port wire) {
  unsigned t = START;
  for (int bit = 0; bit < 8; bit++) {
    wire @ t <: 0;
    wire @ t + BIT_TIME / 2 <: 1;
    t += BIT_TIME;
  }
}

// Sends a byte, the highest bit first, and counts its ones.
void send(out port wire, unsigned byte, int &ones) {
  unsigned t = START;
  for (int bit = 7; bit >= 0; bit--) {
    wire @ t <: byte >> bit;  // a port of one bit outputs the lowest bit
    ones += byte >> bit & 1;
    t += BIT_TIME;
  }
}

int main(void) {
  int a, b, c, d, e, f;  // one for each lane: what one branch changes no other may use, and an array counts as one variable
  par {
    frame(framed);
    beat(beats);
    send(lane0, 0x48, a);
    send(lane1, 0x65, b);
    send(lane2, 0x6c, c);
    send(lane3, 0x6c, d);
    send(lane4, 0x6f, e);
    send(lane5, 0x21, f);
  }
  count @ 2000 <: a + b + c + d + e + f;
  return 0;
}
