package replay;

import java.util.ArrayList;
import java.util.LinkedHashMap;
import java.util.List;
import java.util.Map;
import java.util.regex.Pattern;

/** Reads the part of TOML that finitizations use: tables, in line too, arrays, integers, truth values, texts of one line. */
final class Toml {
    private static final Pattern INTEGER = Pattern.compile("[+-]?[0-9][0-9_]*|0x[0-9A-Fa-f_]+|0o[0-7_]+|0b[01_]+");
    private final String name;
    private final String text;
    private int at;

    Toml(String name, String text) {
        this.name = name;
        this.text = text;
    }

    Map<String, Object> document() throws Fault {
        Map<String, Object> top = new LinkedHashMap<>();
        Map<String, Object> table = top;
        for (gap(); at < text.length(); gap()) {
            if (taken("[")) {
                table = tableAt(top, path());
                want("]");
            } else {
                pair(table);
            }
            lineEnd();
        }
        return top;
    }

    private Fault fault(String what) {
        return new Fault(name + ":" + text.substring(0, at).lines().count() + ": " + what);
    }

    private char next() {
        return at < text.length() ? text.charAt(at) : '\0';
    }

    private void blanks() {
        while (next() == ' ' || next() == '\t') {
            at++;
        }
    }

    /** Passes over blanks, line ends and comments. */
    private void gap() {
        for (blanks(); "\r\n#".indexOf(next()) >= 0; blanks()) {
            if (next() == '#') {
                comment();
            } else {
                at++;
            }
        }
    }

    private void comment() {
        int end = text.indexOf('\n', at);
        at = end < 0 ? text.length() : end;
    }

    private void lineEnd() throws Fault {
        blanks();
        if (at < text.length() && "\r\n#".indexOf(next()) < 0) {
            throw fault("the line goes on where it should end");
        }
    }

    private boolean taken(String token) {
        boolean there = text.startsWith(token, at);
        at += there ? token.length() : 0;
        return there;
    }

    private void want(String token) throws Fault {
        blanks();
        if (!taken(token)) {
            throw fault("no '" + token + "' where one should stand");
        }
    }

    private List<String> path() throws Fault {
        List<String> path = new ArrayList<>();
        do {
            blanks();
            path.add(key());
            blanks();
        } while (taken("."));
        return path;
    }

    private String key() throws Fault {
        if (next() == '"' || next() == '\'') {
            return quoted();
        }
        int start = at;
        while (String.valueOf(next()).matches("[A-Za-z0-9_-]")) {
            at++;
        }
        if (start == at) {
            throw fault("no key where one should stand");
        }
        return text.substring(start, at);
    }

    @SuppressWarnings("unchecked")
    private Map<String, Object> tableAt(Map<String, Object> top, List<String> path) throws Fault {
        Map<String, Object> table = top;
        for (String key : path) {
            Object below = table.computeIfAbsent(key, absent -> new LinkedHashMap<String, Object>());
            if (!(below instanceof Map)) {
                throw fault("'" + key + "' is no table");
            }
            table = (Map<String, Object>) below;
        }
        return table;
    }

    private void pair(Map<String, Object> table) throws Fault {
        List<String> path = path();
        want("=");
        blanks();
        Map<String, Object> holder = tableAt(table, path.subList(0, path.size() - 1));
        if (holder.put(path.get(path.size() - 1), value()) != null) {
            throw fault("a key that stands there twice");
        }
    }

    private Object value() throws Fault {
        if (next() == '"' || next() == '\'') {
            return quoted();
        } else if (taken("[")) {
            return array();
        } else if (taken("{")) {
            return inline();
        }
        int start = at;
        while (String.valueOf(next()).matches("[A-Za-z0-9_+.:-]")) {
            at++;
        }
        String word = text.substring(start, at);
        return switch (word) {
            case "true" -> true;
            case "false" -> false;
            default -> integer(word);
        };
    }

    private Long integer(String word) throws Fault {
        if (!INTEGER.matcher(word).matches()) {
            throw fault("'" + word + "' is no value that a finitization has");
        }
        String digits = word.replace("_", "");
        try {
            return switch (digits.length() > 2 ? digits.substring(0, 2) : "") {
                case "0x" -> Long.parseLong(digits.substring(2), 16);
                case "0o" -> Long.parseLong(digits.substring(2), 8);
                case "0b" -> Long.parseLong(digits.substring(2), 2);
                default -> Long.parseLong(digits);
            };
        } catch (NumberFormatException large) {
            throw fault("'" + word + "' is too large");
        }
    }

    private List<Object> array() throws Fault {
        List<Object> items = new ArrayList<>();
        for (gap(); !taken("]"); gap()) {
            items.add(value());
            gap();
            if (!taken(",") && next() != ']') {
                throw fault("no ',' or ']' behind an item");
            }
        }
        return items;
    }

    private Map<String, Object> inline() throws Fault {
        Map<String, Object> table = new LinkedHashMap<>();
        for (gap(); !taken("}"); gap()) {
            pair(table);
            gap();
            if (!taken(",") && next() != '}') {
                throw fault("no ',' or '}' behind a pair");
            }
        }
        return table;
    }

    private String quoted() throws Fault {
        char quote = next();
        if (text.startsWith(String.valueOf(quote).repeat(3), at)) {
            throw fault("a text of several lines, which no finitization needs");
        }
        StringBuilder read = new StringBuilder();
        for (at++; next() != quote; at++) {
            if (at >= text.length() || next() == '\n') {
                throw fault("a text without an end");
            }
            read.append(quote == '"' && next() == '\\' ? escaped() : next());
        }
        at++;
        return read.toString();
    }

    private char escaped() throws Fault {
        at++;
        int index = "\"\\tnrbf".indexOf(next());
        if (index < 0) {
            throw fault("an escape that no finitization needs");
        }
        return "\"\\\t\n\r\b\f".charAt(index);
    }
}
