//@ requires true;
class A { }