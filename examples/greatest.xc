// A ring over links: four cores find the greatest of their numbers, which no core knows at first but its own.
//
// Look at the trace: the token goes round twice. On its first way it becomes the greatest number that it has met, and on its second
// one it tells each core. Then all cores show it at one tick: their clocks and the counters of their ports are the same.
#define SHOWN 2000

on tile[0] : out port wires0 = XS1_PORT_8A;
on tile[1] : out port wires1 = XS1_PORT_8A;
on tile[2] : out port wires2 = XS1_PORT_8A;
on tile[3] : out port wires3 = XS1_PORT_8A;

int greater(int a, int b) {
  return a > b ? a : b;
}

void station(chanend before, chanend behind, int number, out port wires) {
  int token;
  before :> token;
  token = greater(token, number);
  behind <: token;
  before :> token;
  behind <: token;
  wires @ SHOWN <: token;
}

// The station that makes the token, and takes it out of the ring at the end.
void first(chanend before, chanend behind, int number, out port wires) {
  int token = number;
  behind <: token;
  before :> token;
  behind <: token;
  before :> token;
  wires @ SHOWN <: token;
}

int main(void) {
  chan c0, c1, c2, c3;  // c0 leads from core 0 to core 1, and c3 back to core 0
  par {
    on tile[0] : first(c3, c0, 17, wires0);
    on tile[1] : station(c0, c1, 5, wires1);
    on tile[2] : station(c1, c2, 42, wires2);
    on tile[3] : station(c2, c3, 23, wires3);
  }
  return 0;
}
