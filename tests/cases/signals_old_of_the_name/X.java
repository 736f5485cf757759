class Cell { int v; boolean repOk() { return true; }
  //@ signals (Exception e) \old(e) == null && e != null;
  void take() { throw new Exception(); } }
