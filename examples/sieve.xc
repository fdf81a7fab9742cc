// A sieve: the lucky numbers below 64. Every second number is struck out. The next that is left is 3, so every third of those
// that are left is struck out; then comes 7, so every seventh; and so on.
//
// Look at the trace: the numbers that are left, from tick 40000 on, 500 ticks apart. Look at `while` in main: `next` gives SIZE
// where no number is left.
#define SIZE 64

out port lucky = XS1_PORT_8A;

// Of the numbers that are left, strikes out one in so many as `step` says: the last of each group.
void strike(int struck[SIZE], int step) {
  int count = 0;
  for (int n = 1; n < SIZE; n++) {
    if (struck[n])
      continue;
    count++;
    if (count == step) {
      struck[n] = 1;
      count = 0;
    }
  }
}

// The first number above n that is left, or SIZE.
int next(int struck[SIZE], int n) {
  do {
    n++;
  } while (n < SIZE && struck[n]);
  return n;
}

int main(void) {
  int struck[SIZE];
  int step;
  unsigned time = 40000;

  strike(struck, 2);
  step = next(struck, 1);
  while (step < SIZE) {
    strike(struck, step);
    step = next(struck, step);
  }
  for (int n = 1; n < SIZE; n++)
    if (!struck[n]) {
      lucky @ time <: n;
      time += 500;
    }
  return 0;
}
