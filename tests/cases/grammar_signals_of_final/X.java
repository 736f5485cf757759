class A {
//@ signals (final Exception e) true;
void m() { } }
