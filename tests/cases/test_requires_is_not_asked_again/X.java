class Cell {
  int v;
  boolean repOk() { return true; }
  //@ requires v == 0;
  void inc() { v = 1; }
}
