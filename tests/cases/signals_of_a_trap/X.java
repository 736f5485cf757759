class Cell { int v; boolean repOk() { return true; }
  //@ signals (ArithmeticException e) v == 0 && e != null;
  void take() { v = 1 / v; } }
