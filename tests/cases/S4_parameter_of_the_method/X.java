class Cell {
  int v;
  boolean repOk() { return true; }
  //@ requires x > 0;
  //@ ensures \result == v + x;
  int plus(int x) { return v + x; }
}
