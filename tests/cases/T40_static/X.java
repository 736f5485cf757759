class A {
  //@ ensures \result;
  static boolean m() { return true; } }