class A {
//@ signals (Exception e) true;
static void m() { } }
