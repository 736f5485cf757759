class Cell { int v; boolean repOk() { return true; }
  //@ signals (NullPointerException e) false;
  //@ signals (RuntimeException e) true;
  //@ signals (Throwable e) e instanceof NullPointerException;
  void take() { if (v == 0) throw new IllegalStateException(); v = v - 1; } }
