class Cell { int v; boolean repOk() { return true; }
  //@ signals (Throwable t) true;
  void take() { int[] a = new int[65]; } }
