class A {
//@ signals (A a) true;
void m() { } }
