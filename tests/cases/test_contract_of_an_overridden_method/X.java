class Cell extends Base { int v; boolean repOk() { return true; }
  void inc() { } }
class Base {
  //@ requires false;
  //@ ensures false;
  void inc() { } }
