#include "Vcounter.h"
#include "verilated.h"
#include "verilated_vcd_c.h"
int main(int argc, char **argv) {
  VerilatedContext context;
  context.commandArgs(argc, argv);
  context.traceEverOn(true);
  Vcounter top(&context);
  VerilatedVcdC trace;
  top.trace(&trace, 99);
  trace.open("verilator.vcd");
  for (int step = 0; step < 20; step++) {  // the clock rises at 5 ns, 15 ns, ..
    top.clk = step % 2;
    top.reset = step < 2;
    top.eval();
    trace.dump(5000 * step);
  }
  trace.close();
}
