class Cell { int v; boolean repOk() { return true; } int w() { return v; }
  //@ ensures w() == 1;
  void inc() { } }
class Low extends Cell { int w() { v = 1; return v; } }
