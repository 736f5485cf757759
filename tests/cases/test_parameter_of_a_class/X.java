class Cell { int v; Cell o; boolean repOk() { return true; }
  //@ requires p != this;
  //@ ensures o == p && (p == null || p.o == \old(p == null ? null : p.o));
  void put(Cell p) { o = p; } }
