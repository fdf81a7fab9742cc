// A program that errs: its loop has one turn too many, so an index is outside its array.
//
// Look at the trace: the fifth record is of the error, with the line and the column of the array's name. The program goes no
// further, its end word is `trapped`, and the status is 3. Nothing is read or written outside the array.
#define LENGTH 4

out port squares = XS1_PORT_8A;

int main(void) {
  int a[LENGTH];
  for (int i = 0; i <= LENGTH; i++) {  // should be i < LENGTH
    a[i] = i * i;
    squares @ 1000 + 100 * i <: a[i];
  }
  return 0;
}
