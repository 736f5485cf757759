class Cell { int v; boolean repOk() { return true; }
  //@ requires \old(v) == 1;
  int inc() { return 1; } }
