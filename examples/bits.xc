// How many bits of a word are 1: each turn of the loop clears the lowest of them, so there are as many turns as there are ones.
//
// Look at the function `ones`: its parameter is a copy, so it may change it. Look at the values in the trace: the word begins
// as 1 and becomes 3 times itself each time, and the count is output every 1000 ticks.
out port count = XS1_PORT_8A;

int ones(unsigned word) {
  int found = 0;
  while (word != 0) {
    word &= word - 1;  // clears the lowest 1
    found++;
  }
  return found;
}

int main(void) {
  unsigned word = 1;
  for (int i = 1; i <= 12; i++) {
    int found = ones(word);  // a call stands alone at the right of an assignment
    count @ i * 1000 <: found;
    word *= 3;
  }
  return 0;
}
