class Cell { int v; boolean repOk() { return v < 9; }
  //@ signals (IllegalStateException) true;
  void take() { v = 9; throw new IllegalStateException(); } }
