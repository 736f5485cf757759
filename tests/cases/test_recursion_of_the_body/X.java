class Cell {
  int v;
  boolean repOk() { return true; }
  //@ requires v >= 0;
  //@ ensures \result == v * (v + 1) / 2;
  int sum() { return up(v); }
  int up(int n) { return n == 0 ? 0 : n + up(n - 1); }
}
