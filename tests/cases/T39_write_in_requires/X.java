class Cell { int v; boolean repOk() { return true; }
  //@ requires (v = 1) == 1;
  int inc() { return 1; } }
