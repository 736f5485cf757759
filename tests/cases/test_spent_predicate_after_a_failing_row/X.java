class Cell {
  int v;
  boolean repOk() { while (v == 2) {} return true; }
  //@ ensures v == 1;
  void inc() { v = v + 1; }
}
