// Times and the 16 bits of a port's counter: which tick each of them is, and a run that ends before its program does.
//
// Look at the trace: it has two of the three outputs, and the end word is `stopped`. `xcsim run` makes 100,000 ticks and the
// third output comes later. The status is 4. The listing has all three.
out port p = XS1_PORT_1A;

int main(void) {
  p @ 65636 <: 1;  // the low 16 bits of a time count: 65636 - 65536 = 100, so this is at tick 100
  p @ 90 <: 0;     // 90 has passed when this begins to wait, so the counter has to come round to it: at tick 65536 + 90
  p @ 50 <: 1;     // 50 comes round at tick 131122, which is 2 * 65536 + 50
  return 0;
}
