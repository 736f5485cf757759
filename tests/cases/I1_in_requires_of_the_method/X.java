class Cell { int v; boolean repOk() { return true; } boolean touch() { v = 1; return true; }
  //@ requires touch();
  void inc() { } }
