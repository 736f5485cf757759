class Cell extends Base { boolean repOk() { return v >= 0; } int step() { return 2; } }
class Base { int v;
  int step() { return 1; }
  //@ requires v < 2;
  //@ ensures v == \old(v) + 1;
  void inc() { v += step(); } }
