class Cell { int v; boolean repOk() { return true; }
  //@ ensures true;
  static void inc() { } }
