class Cell { int v; boolean repOk() { return true; }
  //@ signals (Exception e) set();
  void take() { }
  boolean set() { v = 1; return true; } }
