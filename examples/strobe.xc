// A bus without a clock: four wires of data and a strobe. Whoever listens reads the wires when the strobe falls, and gives up where the
// strobe is high for more than a microsecond, which is 100 ticks. No output names a time: a level lasts as many ticks as the thread
// executes instructions. While the strobe is high each nibble goes into a check sum, bit by bit, and a bit that is 1 takes longer.
//
// Ask for the greatest time: `./xcsim time examples/strobe.xc examples/strobe.routes` writes the listing and `ticks 93`. From the output
// that raises the strobe to the one that lets it fall there are four steps more: one behind the first, and of the second LDC, SETC, OUT.
// So the strobe is high for 97 ticks at most in each run that is written. Look at the trace: the eight strobes last 85 to 97 ticks.
#define POLYNOMIAL 0x8C

out port bus = XS1_PORT_4A;
out port strobe = XS1_PORT_1A;
out port check = XS1_PORT_8A;

int main(void) {
  unsigned text = 0x6b636974;  // "tick"
  unsigned sum = 0;

  while (text) {
    int i = 0;
    bus <: text;  // the lowest four bits
    strobe <: 1;
    sum ^= text & 15;
    do {
      if (sum & 1) sum = sum >> 1 ^ POLYNOMIAL;
      else sum >>= 1;
      i++;
    } while (i < 4);
    strobe <: 0;
    text >>= 4;
  }
  check <: sum;
  return 0;
}
