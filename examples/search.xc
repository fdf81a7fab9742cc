// A search through an array from its front: where a value stands first.
//
// Look at the trace: the places at which four values stand, 1000 ticks apart. The last value stands nowhere, and for it comes
// the length of the array, 20.
#define LENGTH 20

out port place = XS1_PORT_8A;

// Fills the array with 5, 12, 19, 26 and so on, all modulo 32.
void fill(int a[LENGTH]) {
  for (int i = 0; i < LENGTH; i++)
    a[i] = (7 * i + 5) % 32;
}

// The first place of the value, or the length of the array where it has none.
int search(int a[LENGTH], int value) {
  for (int i = 0; i < LENGTH; i++)
    if (a[i] == value)
      return i;
  return LENGTH;
}

int main(void) {
  int a[LENGTH];
  int found;

  fill(a);
  found = search(a, 5);
  place @ 2000 <: found;
  found = search(a, 1);
  place @ 3000 <: found;
  found = search(a, 10);
  place @ 4000 <: found;
  found = search(a, 31);
  place @ 5000 <: found;
  return 0;
}
