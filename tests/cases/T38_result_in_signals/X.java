class A {
//@ signals (Exception e) \result == 1;
int m() { return 1; } }
