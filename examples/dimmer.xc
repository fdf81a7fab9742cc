// A pulse-width pattern, as it dims a lamp: every 2000 ticks a pulse begins, and its width tells how bright the lamp is.
//
// Look at the trace: in each pair of records the wire goes high and low again. The widths rise from 200 to 1000 ticks and fall
// back: tools/trace-svg draws it.
#define PERIOD 2000
#define STEP 200

out port lamp = XS1_PORT_1A;

int main(void) {
  unsigned time = PERIOD;
  for (int i = 1; i < 10; i++) {
    int width = STEP * (i <= 5 ? i : 10 - i);
    lamp @ time <: 1;
    lamp @ time + width <: 0;
    time += PERIOD;
  }
  return 0;
}
