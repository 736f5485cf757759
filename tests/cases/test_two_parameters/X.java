class Cell {
  int v;
  boolean repOk() { return true; }
  //@ requires x < y;
  //@ ensures \result == x + y * 10 + v;
  int plus(int x, int y) { return x + 10 * y + v; }
}
