// A token ring: six threads, each joined to the next one by a channel, and one token that goes round. Who has the token drives its
// wire, and hands it on.
//
// Look at the trace: behind each `com` stand the two outputs of the thread that has taken the token. No wire is high while another
// one is, though no thread knows of any but its two neighbours. The token is the time from which on the next one may begin.
#define ROUNDS 3

out port wire0 = XS1_PORT_1A;
out port wire1 = XS1_PORT_1B;
out port wire2 = XS1_PORT_1C;
out port wire3 = XS1_PORT_1D;
out port wire4 = XS1_PORT_1E;
out port wire5 = XS1_PORT_1F;

// Drives the wire for so long from a time on, and gives the time from which on the next one may do so.
unsigned drive(out port wire, unsigned time, unsigned length) {
  wire @ time <: 1;
  wire @ time + length <: 0;
  return time + length + 100;
}

void station(chanend before, chanend behind, out port wire, unsigned length) {
  for (int i = 0; i < ROUNDS; i++) {
    before :> unsigned token;
    token = drive(wire, token, length);
    behind <: token;
  }
}

// The station that makes the token, and takes it out of the ring at the end.
void first(chanend before, chanend behind, out port wire, unsigned length) {
  unsigned token = 1000;
  for (int i = 0; i < ROUNDS; i++) {
    token = drive(wire, token, length);
    behind <: token;
    before :> token;
  }
}

int main(void) {
  chan c0, c1, c2, c3, c4, c5;  // c0 leads from station 0 to station 1, and c5 back to station 0
  par {
    first(c5, c0, wire0, 200);
    station(c0, c1, wire1, 300);
    station(c1, c2, wire2, 400);
    station(c2, c3, wire3, 500);
    station(c3, c4, wire4, 600);
    station(c4, c5, wire5, 700);
  }
  return 0;
}
