// A pipeline over four cores: the power of a signal. Each core does one thing to a sample, and hands it on over a link.
//
// Look at the trace: from one beat to the next stand three `com` records, of core 1, 2 and 3: the sample, its square, and the mean of
// the last four squares, which core 3 outputs half way to the next beat. A sample below 0 stands there as 2^32 more. Each of the ports
// is its core's own, so the beat is out on core 0 and the level on core 3. All cores count the same ticks.
#define PERIOD 1000
#define COUNT 10

on tile[0] : out port beat = XS1_PORT_1A;
on tile[3] : out port level = XS1_PORT_8A;

// A sample at each beat.
void source(chanend to, out port wire) {
  for (int i = 1; i <= COUNT; i++) {
    wire @ PERIOD * i <: i;
    to <: i * 7 % 16 - 8;
  }
}

void squares(chanend from, chanend to) {
  for (int i = 0; i < COUNT; i++) {
    from :> int sample;
    to <: sample * sample;
  }
}

// The mean of the last four.
void means(chanend from, chanend to) {
  int last[4], sum = 0;
  for (int i = 0; i < COUNT; i++) {
    from :> int square;
    sum += square - last[i & 3];
    last[i & 3] = square;
    to <: sum / 4;
  }
}

void show(chanend from, out port wires) {
  for (int i = 1; i <= COUNT; i++) {
    from :> int mean;
    wires @ PERIOD * i + PERIOD / 2 <: mean;
  }
}

int main(void) {
  chan samples, powers, smooth;
  par {
    on tile[0] : source(samples, beat);
    on tile[1] : squares(samples, powers);
    on tile[2] : means(powers, smooth);
    on tile[3] : show(smooth, level);
  }
  return 0;
}
