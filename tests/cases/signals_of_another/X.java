class Cell { int v; boolean repOk() { return true; }
  //@ signals (NullPointerException e) true;
  void take() { if (v == 0) throw new IllegalStateException(); v = v - 1; } }
