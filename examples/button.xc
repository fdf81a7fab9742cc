// A button that bounces: when it is pressed or let go its wire jumps to and fro before it rests, and the lamp must change once.
//
// Look at the trace: the program waits for an edge and looks at the wire again SETTLE ticks behind it. Where the wire is then still
// what it became, that is the new level, and the lamp shows it. Compare it with button.stim, which has all the edges: at tick 30000
// a spike of 40 ticks is no press.
#define SETTLE 1000

in port button = XS1_PORT_1B;
out port lamp = XS1_PORT_1A;
out port count = XS1_PORT_8A;

// Waits until the wire has another level than this one for good, and gives the new one. `time` becomes the time of the second look.
int settled(in port wire, int level, unsigned &time) {
  int now;
  do {
    wire when pinsneq(level) :> void @ time;  // drops the value, and stores the counter at the edge
    time += SETTLE;
    wire @ time :> now;
  } while (now == level);
  return now;
}

int main(void) {
  int level = 0, presses = 0;
  unsigned time;
  while (presses < 3) {
    level = settled(button, level, time);
    lamp @ time + 100 <: level;
    if (level == 1) {
      presses++;
      count @ time + 200 <: presses;
    }
  }
  return 0;
}
