// A fan-in: three producers, each on a core of its own and at its own pace, and one select on core 0 that takes what comes first.
//
// Look at the trace: a `com` record is the time at which a producer sent. Behind it stand the producer's lamp, on its core, and on
// core 0 how many words have come so far. A producer's lamp goes on when its word has been taken: an output over a link
// waits for that too.
#define WORDS 3

on tile[0] : out port count = XS1_PORT_8A;
on tile[1] : out port lamp1 = XS1_PORT_1A;
on tile[2] : out port lamp2 = XS1_PORT_1A;
on tile[3] : out port lamp3 = XS1_PORT_1A;

void produce(chanend to, unsigned pace, out port lamp) {
  timer t;
  unsigned time = pace;
  for (int i = 0; i < WORDS; i++) {
    t when timerafter(time) :> void;
    to <: time;
    lamp @ time + 50 <: 1;
    lamp @ time + 150 <: 0;
    time += pace;
  }
}

void gather(chanend first, chanend second, chanend third, out port wires) {
  unsigned time;
  for (int n = 1; n <= 3 * WORDS; n++) {
    select {
      case first :> time:
        break;
      case second :> time:
        break;
      case third :> time:
        break;
    }
    wires @ time + 100 <: n;
  }
}

int main(void) {
  chan a, b, c;
  par {
    on tile[0] : gather(a, b, c, count);
    on tile[1] : produce(a, 1000, lamp1);
    on tile[2] : produce(b, 1700, lamp2);
    on tile[3] : produce(c, 2300, lamp3);
  }
  return 0;
}
