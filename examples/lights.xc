// A traffic light: a state machine that drives three wires of one port. Bit 0 is red, bit 1 amber, bit 2 green.
//
// Look at the trace: the light goes through its four states twice. Each record is the begin of a state: 1 is red, 3 red and
// amber, 4 green, 2 amber. How far two of them are apart is how long the state lasts.
#define RED 0
#define RED_AMBER 1
#define GREEN 2
#define AMBER 3

out port lamps = XS1_PORT_4A;

// Which lamps are on in a state.
int lamps_of(int state) {
  if (state == RED)
    return 0b001;
  if (state == RED_AMBER)
    return 0b011;
  if (state == GREEN)
    return 0b100;
  return 0b010;
}

// How many ticks a state lasts.
unsigned length_of(int state) {
  if (state == RED)
    return 5000;
  if (state == GREEN)
    return 4000;
  return 500;
}

int main(void) {
  int state = RED;
  unsigned time = 1000;
  for (int change = 0; change < 8; change++) {
    int lit = lamps_of(state);
    unsigned length = length_of(state);
    lamps @ time <: lit;
    time += length;
    state = (state + 1) % 4;
  }
  lamps @ time <: 0b010;  // at the end the light stays amber
  return 0;
}
