class A {
//@ ensures \result == 1;
void m() { } }