class Cell { int v; boolean repOk() { return true; }
  //@ ensures \result == 1;
  void inc() { } }
