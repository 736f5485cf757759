class Cell { int v; boolean repOk() { return true; }
  //@ signals (IllegalStateException e) v == 0;
  void take() { if (v == 0) throw new IllegalStateException(); v = v - 1; } }
