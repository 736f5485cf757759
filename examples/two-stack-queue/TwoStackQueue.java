// A queue made of two stacks: elements are pushed on one, and popped from the other.
class TwoStackQueue {
    static class Stack {
        int[] elements;
        int top;

        boolean repOk() {
            if (elements == null) return false;
            if (top < 0 || top > elements.length) return false;
            for (int i = top; i < elements.length; i++) {
                if (elements[i] != 0) return false;
            }
            return true;
        }
    }

    Stack in;
    Stack out;

    boolean repOk() {
        if (in == null || out == null || in == out) return false;
        if (!in.repOk() || !out.repOk()) return false;
        return in.elements != out.elements;
    }
}
