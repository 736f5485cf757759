class Cell { int v; boolean repOk() { return true; }
  //@ ensures \old(new Cell()) == null;
  int inc() { return 1; } }
