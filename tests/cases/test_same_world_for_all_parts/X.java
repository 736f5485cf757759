class Cell {
  int v; static final int K = 1;
  boolean repOk() { return true; }
  //@ ensures bump() == 1;
  //@ ensures bump() == 2;
  void inc() { v = 0; }
  int bump() { Box b = new Box(); b.w += K; return b.w + v; }
}
class Box { int w; }
