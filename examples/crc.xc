// A check sum in software: the CRC with the polynomial 0x1021 of the nine bytes "123456789", which is 0x29b1.
//
// Look at the end of the trace: the whole check sum at tick 10000, and from tick 11000 on its bits, the highest first, one every
// 100 ticks on a wire of its own.
#define START 0xffff
#define POLYNOMIAL 0x1021

out port whole = XS1_PORT_16A;
out port wire = XS1_PORT_1A;

// Takes a byte into the check sum.
void add_byte(unsigned &crc, unsigned byte) {
  crc ^= byte << 8;
  for (int bit = 0; bit < 8; bit++) {
    if (crc & 0x8000)
      crc = crc << 1 ^ POLYNOMIAL;
    else
      crc = crc << 1;
    crc &= 0xffff;
  }
}

// Shifts the 16 bits of a word out, from a time on.
void shift_out(out port p, unsigned word, unsigned time) {
  for (int bit = 15; bit >= 0; bit--) {
    p @ time <: word >> bit;  // a port of one bit outputs the lowest bit
    time += 100;
  }
}

int main(void) {
  unsigned crc = START;
  for (unsigned byte = 0x31; byte <= 0x39; byte++)  // the digits 1 to 9
    add_byte(crc, byte);
  whole @ 10000 <: crc;
  shift_out(wire, crc, 11000);
  return 0;
}
