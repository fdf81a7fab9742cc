"""What the programs trace-vcd, trace-svg, trace-msc and annotate share: they read what xcsim wrote, and show it."""
