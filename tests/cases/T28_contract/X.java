class A { int v;
  //@ requires v;
  void m() { } }