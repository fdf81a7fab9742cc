// Insertion sort: each number is put among those before it, which are in order already.
//
// Look at the trace: the numbers as they were, from tick 1000 on, and sorted, from tick 8000 on. Some of them are below 0, and
// records are of unsigned values, so there -1 is 4294967295.
#define LENGTH 10

out port numbers = XS1_PORT_32A;

// Fills the array with numbers from -50 to 50 in no order.
void fill(int a[LENGTH]) {
  int x = 17;
  for (int i = 0; i < LENGTH; i++) {
    x = (x * 29 + 47) % 101;
    a[i] = x - 50;
  }
}

void sort(int a[LENGTH]) {
  for (int i = 1; i < LENGTH; i++) {
    int x = a[i];
    int j = i;
    while (j > 0 && a[j - 1] > x) {  // a[j - 1] isn't looked at where j is 0
      a[j] = a[j - 1];
      j--;
    }
    a[j] = x;
  }
}

// Outputs the numbers, 100 ticks apart.
void show(out port p, int a[LENGTH], unsigned time) {
  for (int i = 0; i < LENGTH; i++)
    p @ time + 100 * i <: a[i];
}

int main(void) {
  int a[LENGTH];

  fill(a);
  show(numbers, a, 1000);
  sort(a);
  show(numbers, a, 8000);
  return 0;
}
