class Cell { int v; boolean repOk() { return true; }
  //@ ensures v++ == 1;
  int inc() { return 1; } }
