// A producer and a consumer: one thread works out the numbers, another one outputs them at its own pace.
//
// Look at the trace: a `com` record is a number that the consumer has taken, and behind it stands the output of that number, 1000
// ticks behind the one before. An output to a channel doesn't pass before it is taken, so the producer waits with the next number
// until the consumer comes for it, and is never further ahead.
out port shown = XS1_PORT_8A;

// Halves an even number, and makes three times an odd one and 1 more, until 1 comes out.
void produce(chanend numbers) {
  unsigned n = 12;
  numbers <: n;
  while (n != 1) {
    if (n & 1) n = 3 * n + 1;
    else n /= 2;
    numbers <: n;
  }
}

void consume(chanend numbers, out port wires) {
  unsigned n, t = 1000;
  do {
    numbers :> n;
    wires @ t <: n;
    t += 1000;
  } while (n != 1);
}

int main(void) {
  chan numbers;
  par {
    produce(numbers);
    consume(numbers, shown);
  }
  return 0;
}
