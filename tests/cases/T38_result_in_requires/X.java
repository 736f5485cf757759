class Cell { int v; boolean repOk() { return true; }
  //@ requires \result == 1;
  int inc() { return 1; } }
