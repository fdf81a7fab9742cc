// The light of a staircase: a press of the button lights it, and a press while it is lit begins its time anew. Before it goes out it
// dims for a while, as a warning.
//
// Look at the trace: the light has three states. In each the program waits for the button's next edge, and in two of them for the end
// of the state too, whichever comes first. Two of the wires are the lamps: 3 is lit, 1 is dim. The edges are those of staircase.stim.
#define OUT 0
#define LIT 1
#define DIM 2
#define LIT_TIME 8000
#define DIM_TIME 2000

in port button = XS1_PORT_1B;
out port lamps = XS1_PORT_4A;

int main(void) {
  timer t;
  int state = OUT, level = 0, nights = 0;
  unsigned time;     // of the last edge: a stamp has 16 bits, and is the clock as long as that is below 65536
  unsigned end = 0;  // when the state ends, where it does by itself
  while (nights < 2) {
    select {
      case button when pinsneq(level) :> level @ time:
        if (level == 1) {
          state = LIT;
          end = time + LIT_TIME;
          lamps @ time + 100 <: 0b0011;
        }
        break;
      case state != OUT => t when timerafter(end) :> void:
        if (state == LIT) {
          state = DIM;
          lamps @ end + 100 <: 0b0001;
          end += DIM_TIME;
        } else {
          state = OUT;
          lamps @ end + 100 <: 0b0000;
          nights++;
        }
        break;
    }
  }
  return 0;
}
