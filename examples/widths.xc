// One value at ports of each width: 1, 4, 8, 16 and 32 bits. The number behind XS1_PORT_ is the width.
//
// Look at the values in the trace: each port outputs the low bits of the value, as many as it is wide.
// Look at the stamps: an output without a time is four instructions (LDC, LDC, SETC, OUT), one a tick, so they are 4 apart.
out port one = XS1_PORT_1P;
out port four = XS1_PORT_4F;
out port eight = XS1_PORT_8D;
out port sixteen = XS1_PORT_16B;
out port all = XS1_PORT_32A;

int main(void) {
  one <: 0x89abcdef;      // 1
  four <: 0x89abcdef;     // 0xf, which is 15
  eight <: 0x89abcdef;    // 0xef, which is 239
  sixteen <: 0x89abcdef;  // 0xcdef, which is 52719
  all <: 0x89abcdef;      // all of it: 2309737967, since records are of unsigned values
  return 0;
}
