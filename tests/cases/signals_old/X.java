class Cell { int v; boolean repOk() { return true; }
  //@ signals (Exception) v == \old(v) + 1;
  void take() { v = v + 1; if (v == 2) throw new Exception(); } }
