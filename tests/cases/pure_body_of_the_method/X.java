class Cell {
  int v;
  boolean repOk() { return true; }
  //@ ensures v == 5;
  void inc() { v = 5; }
}
