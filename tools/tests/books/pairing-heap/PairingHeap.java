import java.util.ArrayList;
import java.util.List;

public class PairingHeap<AnyType extends Comparable<? super AnyType>> {
    public interface Position<AnyType> {
        AnyType getValue();
    }

    private static class PairNode<AnyType> implements Position<AnyType> {
        AnyType element;
        PairNode<AnyType> leftChild;
        PairNode<AnyType> nextSibling;
        PairNode<AnyType> prev;

        PairNode(AnyType theElement) {
            element = theElement;
        }

        @Override
        public AnyType getValue() {
            return element;
        }
    }

    private PairNode<AnyType> root;
    private int theSize;

    public Position<AnyType> insert(AnyType x) {
        PairNode<AnyType> newNode = new PairNode<>(x);
        if (root == null) root = newNode;
        else root = compareAndLink(root, newNode);
        theSize++;
        return newNode;
    }

    private PairNode<AnyType> compareAndLink(PairNode<AnyType> first, PairNode<AnyType> second) {
        if (second == null) return first;
        if (second.element.compareTo(first.element) < 0) {
            second.prev = first.prev;
            first.prev = second;
            first.nextSibling = second.leftChild;
            second.leftChild = first;
            return second;
        }
        second.prev = first;
        first.nextSibling = second.nextSibling;
        second.nextSibling = first.leftChild;
        first.leftChild = second;
        return first;
    }

    boolean repOk() {
        if (root == null) return theSize == 0;
        if (root.prev != null || root.nextSibling != null) return false;
        List<PairNode<AnyType>> todo = new ArrayList<>();
        todo.add(root);
        for (int i = 0; i < todo.size(); i++) {
            PairNode<AnyType> node = todo.get(i), before = node;
            for (PairNode<AnyType> child = node.leftChild; child != null; child = child.nextSibling) {
                if (child.prev != before || todo.contains(child)) return false;
                if (child.getValue().compareTo(node.getValue()) < 0) return false;
                todo.add(child);
                before = child;
            }
        }
        return todo.size() == theSize;
    }
}
