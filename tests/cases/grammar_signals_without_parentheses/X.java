class A {
//@ signals Exception true;
void m() { } }
