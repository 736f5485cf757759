package books;

import java.util.HashMap;
import java.util.Map;

public class Trie {
    private class TrieNode {
        Map<Character, TrieNode> children = new HashMap<>();
        boolean endOfWord;
    }

    private final TrieNode root = new TrieNode();

    public void insert(String word) {
        TrieNode current = root;
        for (char c : word.toCharArray()) {
            current = current.children.computeIfAbsent(c, key -> new TrieNode());
        }
        current.endOfWord = true;
    }

    public boolean contains(String word) {
        TrieNode current = root;
        for (int i = 0; i < word.length(); i++) {
            current = current.children.get(word.charAt(i));
            if (current == null) return false;
        }
        return current.endOfWord;
    }

    boolean repOk() {
        return noDeadEnds(root, true);
    }

    private boolean noDeadEnds(TrieNode node, boolean top) {
        if (!top && node.children.isEmpty() && !node.endOfWord) return false;
        for (Map.Entry<Character, TrieNode> e : node.children.entrySet()) {
            if (!Character.isLowerCase(e.getKey()) || !noDeadEnds(e.getValue(), false)) return false;
        }
        return true;
    }
}
