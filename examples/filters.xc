// A pipeline of filters: a sample every 1000 ticks goes from thread to thread, each of which does one thing to it.
//
// Look at the trace: from one beat to the next stand four `com` records, one for each thread behind the source: the sample, its
// difference to the one before, the sum of the last four differences, and the sum cut to what eight wires show. A number below 0
// stands there as 2^32 more. The output comes half way to the next beat.
#define PERIOD 1000
#define COUNT 12

out port beat = XS1_PORT_1A;
out port level = XS1_PORT_8A;

// A sample at each beat.
void source(chanend to, out port wire) {
  int sample = 40;
  for (int i = 1; i <= COUNT; i++) {
    wire @ PERIOD * i <: i;
    to <: sample;
    sample = (sample * 29 + 47) % 301;
  }
}

void differences(chanend from, chanend to) {
  int before = 0;
  for (int i = 0; i < COUNT; i++) {
    from :> int sample;
    to <: sample - before;
    before = sample;
  }
}

// The sum of the last four.
void sums(chanend from, chanend to) {
  int last[4], sum = 0;
  for (int i = 0; i < COUNT; i++) {
    from :> int number;
    sum += number - last[i & 3];
    last[i & 3] = number;
    to <: sum;
  }
}

// What is below 0 becomes 0, and what is above 255 becomes 255.
void limits(chanend from, chanend to) {
  for (int i = 0; i < COUNT; i++) {
    from :> int number;
    to <: number < 0 ? 0 : number > 255 ? 255 : number;
  }
}

void show(chanend from, out port wires) {
  for (int i = 1; i <= COUNT; i++) {
    from :> int number;
    wires @ PERIOD * i + PERIOD / 2 <: number;
  }
}

int main(void) {
  chan samples, changes, sum, limited;
  par {
    source(samples, beat);
    differences(samples, changes);
    sums(changes, sum);
    limits(sum, limited);
    show(limited, level);
  }
  return 0;
}
