class Cell { int v; boolean repOk() { return true; }
  //@ ensures v;
  int inc() { return 1; } }
