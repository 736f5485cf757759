class A {
//@ signals (A a) b == 1;
void m() { } }
