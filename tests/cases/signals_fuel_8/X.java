class Cell { int v; boolean repOk() { return true; }
  //@ signals (Exception e) e != null;
  void take() { throw new Exception(); } }
