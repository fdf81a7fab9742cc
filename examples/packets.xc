// A serial receiver by events: bytes come at 115,200 bits a second, and a packet ends when the wire has been at rest for SILENCE ticks.
//
// Look at the trace: one `select` waits for all that can happen next. At rest that is the edge of a start bit, or the end of the
// packet where a byte has come. Within a byte it is the middle of the next bit, at a time of the port. Two cases are on one port:
// their guards exclude each other, so one of them counts at a time. Compare receiver.xc, which can't tell where a packet ends.
#define BIT_TIME 868
#define SILENCE 5000
#define MOST 8
#define REST 255

in port rx = XS1_PORT_1B;
out port shown = XS1_PORT_8A;

// Shows the bytes of a packet, one each 200 ticks.
void show(unsigned bytes[MOST], int count, unsigned time) {
  for (int i = 0; i < count; i++) {
    time += 200;
    shown @ time <: bytes[i];
  }
}

int main(void) {
  timer t;
  unsigned bytes[MOST], byte = 0, level;
  unsigned time = 0;  // of the last bit: a stamp has 16 bits, and is the clock as long as that is below 65536
  int bit = REST;     // which bit of a byte comes next: 0 to 7, and 8 for the stop bit
  int count = 0, packets = 0;
  rx when pinseq(1) :> void;  // a wire at rest is high
  while (packets < 2) {
    select {
      case bit == REST => rx when pinseq(0) :> void @ time:  // the edge of a start bit
        time += BIT_TIME + BIT_TIME / 2;
        byte = 0;
        bit = 0;
        break;
      case bit != REST => rx @ time :> level:  // the middle of a bit
        if (bit < 8) {
          byte |= level << bit;  // the lowest bit comes first
          bit++;
          time += BIT_TIME;
        } else {
          if (level == 1 && count < MOST) {
            bytes[count] = byte;
            count++;
          }
          bit = REST;
        }
        break;
      case bit == REST && count > 0 => t when timerafter(time + SILENCE) :> void:  // the packet has ended
        show(bytes, count, time + SILENCE);
        count = 0;
        packets++;
        break;
    }
  }
  return 0;
}
