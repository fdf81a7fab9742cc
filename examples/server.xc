// A server of two clients: it gives each who asks the next number, and sleeps when nobody has asked for QUIET ticks.
//
// Look at the trace: the two words of a request come first, the time that the client tells and the number that it gets. The lamp is
// on while the server is awake. One `select` waits for all: for either client, and, while the server is awake, for the time-out.
#define QUIET 5000

out port lamp = XS1_PORT_1A;
out port left = XS1_PORT_8A;
out port right = XS1_PORT_8B;

// Asks for a number at three times, and shows each 500 ticks later.
void ask(chanend server, out port shown, unsigned time, unsigned pause) {
  timer t;
  int number;
  for (int i = 0; i < 3; i++) {
    t when timerafter(time) :> void;
    server <: time;
    server :> number;
    shown @ time + 500 <: number;
    time += pause;
  }
}

// Gives a client the next number. A server that slept is awake from now on.
void answer(chanend client, unsigned time, int &number, int &awake, out port wire) {
  number++;
  client <: number;
  if (!awake) wire @ time + 200 <: 1;
  awake = 1;
}

void serve(chanend first, chanend second, out port wire) {
  timer t;
  unsigned time = 0;  // of the last request
  int number = 0, awake = 0;
  while (number < 6 || awake) {
    select {
      case first :> time:
        answer(first, time, number, awake, wire);
        break;
      case second :> time:
        answer(second, time, number, awake, wire);
        break;
      case awake => t when timerafter(time + QUIET) :> void:  // a case whose guard doesn't hold is never taken
        wire @ time + QUIET + 200 <: 0;
        awake = 0;
        break;
    }
  }
}

int main(void) {
  chan a, b;
  par {
    ask(a, left, 1000, 3000);
    ask(b, right, 2000, 12000);
    serve(a, b, lamp);
  }
  return 0;
}
